# Says what is known of an ending, beside the program's own line. Part of ./poad.

# The files that a server writes at its end, each behind its option.
written() {
    local i
    for ((i = 0; i + 1 < ${#options[@]}; i += 2)); do
        [[ ${options[i]} != --journal && ${options[i]} != --state ]] || echo "${options[i]} ${options[i + 1]}"
    done
}

# Why a file can't be written, if so.
why_not_written() {
    local folder
    folder=$(dirname -- "$1")
    if [ -d "$1" ]; then
        echo 'is a folder'
    elif [ -e "$1" ]; then
        [ -w "$1" ] || echo "can't be written by $(id -un)"
        # What takes its place is written beside.
        [ ! -f "$1" ] || [ -L "$1" ] || [ -w "$folder" ] || echo "can't be replaced: $(id -un) can't write in $folder"
    elif [ ! -d "$folder" ]; then
        echo "can't be made: there is no folder $folder"
    else
        [ -w "$folder" ] || echo "can't be made: $(id -un) can't write in $folder"
    fi
}

# A number of the top table of a configuration, or its default.
number_of() {
    local found
    found=$(sed -n "/^[[:space:]]*\[/q; s/^[[:space:]]*$2[[:space:]]*=[[:space:]]*\([0-9_]*\).*/\1/p" "$1" | tr -d _)
    echo "${found:-$3}"
}

# Which port of a configuration couldn't be had.
explain_ports() {
    local host port ports hosts i
    host=$(sed -n '/^[[:space:]]*\[/q; s/^[[:space:]]*host[[:space:]]*=[[:space:]]*"\([^"]*\)".*/\1/p' "$1")
    host=${host:-127.0.0.1}
    ports=("$(number_of "$1" port 2809)" "$(number_of "$1" admin_port 2810)")
    [ "${ports[0]}" != "${ports[1]}" ] || say "port and admin_port are both ${ports[0]}"
    hosts=("$host" 127.0.0.1)
    for i in 0 1; do
        host=${hosts[i]} port=${ports[i]}
        ! (exec 3<>"/dev/tcp/$host/$port") 2>/dev/null || say "port $port of $host is taken; \`ss -ltnp\` tells by whom"
    done
}

# What a fault of a configuration means.
explain_configuration() {
    case $("$program" check -- "$1" 2>&1 >/dev/null) in
        *NotToml) python3 - "$1" <<'PY' 2>/dev/null | sed 's/^/poad: /' >&2 ;;
import sys, tomllib
try:
    tomllib.load(open(sys.argv[1], "rb"))
except ValueError as wrong:
    print(wrong)
PY
        *Policy*) say 'USE_ACTIVE_OBJECT_MAP_ONLY, which is the default, needs RETAIN, USE_DEFAULT_SERVANT needs' \
            'MULTIPLE_ID, IMPLICIT_ACTIVATION needs SYSTEM_ID and RETAIN, and each kind of policy stands once' ;;
    esac
    say "docs/FORMATS.md, 'Configuration', has the keys and their values"
}

# What is wrong with a file that is read.
explain_file() {
    if [ ! -e "$1" ]; then
        say "there is no file $1"
    elif [ -d "$1" ]; then
        say "$1 is a folder"
    elif [ ! -r "$1" ]; then
        say "$1 can't be read by $(id -un)"
    elif [ "$2" = 17 ]; then
        say "$1 has $(stat -Lc %s "$1") bytes"
    fi
}

# Says what is known here of how a command ended.
explain() {
    local status=$1 command=$2 it files options
    split_words "${@:3}"
    [ "$command" != migrate ] || files=("${files[@]:0:1}")
    case $status in
        2) printf 'usage: ./poad %s\n' "${words[$command]}" >&2 ;;
        3) [ ! -f "${files[0]-}" ] || explain_configuration "${files[0]}" ;;
        8 | 16 | 17) for it in "${files[@]}"; do explain_file "$it" "$status"; done ;;
        13) [ ! -f "${files[0]-}" ] || explain_ports "${files[0]}" ;;
    esac
}

# Runs the server. Part of ./poad.

# Refuses, before a server starts, a file for its end that is FILE itself or another such file, or that can't be written.
refuse() {
    local option name why place
    local -A taken=()
    while read -r option name; do
        why=$(why_not_written "$name") place=$(realpath -m -- "$name")
        if [ "$name" -ef "${files[0]-}" ]; then
            say "$option $name is FILE itself"
            say 'bad words'
            return 2
        elif [ -n "${taken[$place]-}" ] && [[ ! -e $place || -f $place ]]; then
            say "$option $name is the file of ${taken[$place]}, too"
            say 'bad words'
            return 2
        elif [ -n "$why" ]; then
            say "$option $name $why"
            say 'file fault'
            return 8
        fi
        taken[$place]=$option
    done < <(written)
}

# The administrators' host and port, where the server said that it listens.
administrators() {
    sed -n 's/^poad: serving [^ ]* [0-9]*, administrators \([0-9]*\),.*/127.0.0.1 \1/p' "$said"
}

# Says `shutdown` to the server as soon as it listens.
shut_down() {
    local host port
    signals=$((signals + 1))
    [ -n "$server" ] || return
    until read -r host port < <(administrators); do
        kill -0 "$server" 2>/dev/null || return
        sleep 0.1
    done
    (exec 3<>"/dev/tcp/$host/$port" && printf 'shutdown\n' >&3 && read -r -t 10 -u 3 _) 2>/dev/null
    # So ends a read whose time is up.
    if [ "$?" -gt 128 ]; then
        say 'shutdown waits until another administrator leaves, or is silent for half a minute'
    elif [ "$signals" -gt 1 ] && kill -0 "$server" 2>/dev/null; then
        say 'shutdown was said; the server ends when its clients have their last replies, half a minute at most'
    fi
}

# Runs the server, which no signal ends: SIGHUP, SIGINT and SIGTERM have `shutdown` said to it, so that servants are
# etherealized and the journal is put. So does a watcher, where this script is killed.
serve() {
    local said server='' watcher signals=0 heard=-1 status alive files options
    split_words "${@:2}"
    refuse || return
    said=$(mktemp) || return 1
    trap shut_down HUP INT TERM
    {
        trap '' HUP INT TERM
        "$program" "$@" 2>&1 | tee "$said" >&2
        exit "${PIPESTATUS[0]}"
    } &
    server=$!
    # Its input ends with this script, which alone has the other end.
    exec {alive}> >(
        trap '' HUP INT TERM
        read -r _
        ! kill -0 "$server" 2>/dev/null || shut_down
        rm -f "$said"
    )
    watcher=$!
    [ "$signals" = 0 ] || shut_down
    # A signal ends a wait too.
    while [ "$heard" != "$signals" ]; do
        heard=$signals
        wait "$server"
        status=$?
    done
    exec {alive}>&-
    wait "$watcher"
    return "$status"
}

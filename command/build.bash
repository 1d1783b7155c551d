# Builds the program, proved or not. Part of ./poad.

has_kit() {
    command -v rt >/dev/null && return
    say "there is no \`rt\` on the path. It is the command of the Rattle kit, the compiler and prover that poad is built" \
        "with (rattle-kit-13f; README.md, 'What is trusted'): put the kit's folder bin on the path."
    return 1
}

# The lines of crates.txt for the program's crates, each behind those that it stands on.
crates() {
    awk -F: '
        function visit(crate,   i, n, below) {
            if (!(crate in line) || seen[crate]++) return
            n = split(stands_on[crate], below, " ")
            for (i = 1; i <= n; i++) visit(below[i])
            print line[crate]
        }
        !/^#/ && NF == 2 { split($1, parts, " "); stands_on[parts[1]] = $2; line[parts[1]] = $0 }
        END { visit("poad") }' "$top/crates.txt"
}

# Whether a source is newer than this program.
is_stale() {
    local folders
    mapfile -t folders < <(crates | sed "s|[ :].*||; s|^|$top/crates/|")
    [ -n "$(find "$top/crates.txt" "${folders[@]}" -name out -prune -o -type f \
        \( -name '*.rt' -o -name '*.antt' -o -name crates.txt \) -newer "$1" -print -quit)" ]
}

# As many as there are processors, and four gigabytes of memory for each.
how_many() {
    local most free
    most=$(nproc) free=$(awk '/^MemAvailable:/ { print int($2 / 4194304) }' /proc/meminfo)
    [ "$free" -ge "$most" ] || most=$free
    echo "$((most > 0 ? most : 1))"
}

# Copies the program's crates beside what was proved of them before. The lines of `crates.txt` are the words.
copy_sources() {
    local crate names
    mapfile -t names < <(printf '%s\n' "$@" | sed 's/[ :].*//')
    mkdir -p "$place/crates" && printf '%s\n' "$@" >"$place/crates.txt" || return
    for crate in "$place"/crates/*; do
        [[ " ${names[*]} " = *" ${crate##*/} "* ]] || rm -rf "$crate"
    done
    find "$place/crates" -mindepth 2 -maxdepth 2 ! -name out -exec rm -rf {} +
    tar -C "$top" --exclude='crates/*/out' -cf - "${names[@]/#/crates/}" | tar -C "$place" -xf -
}

# Reads what `rt all` prints, and says which crates are done, of how many, and for how long.
tell_progress() {
    local line done=0
    while IFS= read -r line; do
        printf '%s\n' "$line" >>"$log"
        [[ $line = '== '* && $line != '== summary' ]] || continue
        done=$((done + 1))
        say "$done of $1 crates after $((SECONDS / 60)) min: ${line#== }"
    done
}

# Proves the crates side by side and then builds the program, in a folder of their own, so that what is written here
# meanwhile counts for the next build alone. The program of before stays until the new one is there.
build_proved() {
    local lines place log made said teller status=0
    place=${XDG_CACHE_HOME:-${HOME:-/tmp}/.cache}/poad/${top//\//-}
    made=$place/crates/poad/out/poad log=$place/log
    mapfile -t lines < <(crates)
    mkdir -p "$place" && : >"$log" && touch "$place/begun" && copy_sources "${lines[@]}" || return 1
    say "proves and builds ${#lines[@]} crates, $1 at a time, in $place"
    SECONDS=0
    exec {said}> >(tell_progress "${#lines[@]}")
    teller=$!
    (cd "$place" && exec rt all check --jobs "$1") </dev/null >&"$said" 2>&1 &
    exec {said}>&-
    finish "$!" || status=1
    wait "$teller"
    # `rt run` leaves the program, and runs it once without words, which ends as `bad words`.
    if [ "$status" = 0 ]; then
        rm -f "$made"
        (cd "$place/crates/poad" && rt run) </dev/null >>"$log" 2>&1
        [ -x "$made" ] || status=1
    fi
    [ "$status" = 0 ] || { grep -v ': ok$' "$log" | tail -n 60 >&2; say "the build failed; $log has all of it"; return 1; }
    take "$made" "$proved" "$place/begun"
    say "proved and built after $((SECONDS / 60)) min"
}

# Puts a program that was made into its place, with the time at which its build began.
take() {
    mkdir -p "${2%/*}" && install -m 755 "$1" "$2.new" && touch -r "$3" "$2.new" && mv "$2.new" "$2"
}

# `rt try` makes a program without proofs, with checks for bad accesses, runs it, and takes it away; a link keeps it.
build_unproved() {
    local work made='' try status=1
    work=$(mktemp -d) || return 1
    touch "$work/begun"
    say 'builds without proofs, which takes a minute or two'
    SECONDS=0
    # What it is run on takes a while, so that the program is seen.
    (cd "$top/crates/poad" && TMPDIR=$work exec rt try -- load 200000 7) </dev/null >"$work/said" 2>&1 &
    try=$!
    trap 'kill "$try"' HUP INT TERM
    # The folder in which it runs has what it writes, too.
    while [ -z "$made" ] && kill -0 "$try" 2>/dev/null; do
        sleep 0.1
        made=$(find "$work" -name stdout -type f -print -quit 2>/dev/null)
    done
    [ -z "$made" ] || ln "${made%stdout}program" "$work/program"
    kill "$try" 2>/dev/null
    wait "$try" 2>/dev/null
    if [ "$("$work/program" load 0 7 2>/dev/null | head -n 1)" = 'calls 0' ]; then
        take "$work/program" "$unproved" "$work/begun" && status=0
        say "built without proofs after $SECONDS s"
    else
        tail -n 40 "$work/said" >&2
        say 'the build failed'
    fi
    rm -rf "$work"
    return "$status"
}

build() {
    local kind=build_proved made=$proved jobs
    jobs=$(how_many)
    shift
    while [ "$#" -gt 0 ]; do
        case $1 in
            --unproved) kind=build_unproved made=$unproved ;;
            --jobs=[1-9]*) jobs=${1#*=} ;;
            --jobs) jobs=${2-}; [ "$#" -lt 2 ] || shift ;;
            *) jobs='' ;;
        esac
        shift
    done
    [[ $jobs =~ ^[1-9][0-9]*$ ]] || { say 'bad words'; printf 'usage: ./poad %s\n' "${words[build]}" >&2; return 2; }
    has_kit || return
    if [ -x "$made" ] && ! is_stale "$made" && [ ! "$(dirname "$(rt doc)")/KIT-ID" -nt "$made" ]; then
        say "${made#"$top/"} is of these sources already"
        touch "$made"
    else
        "$kind" "$jobs"
    fi
}

# Completes the words of ./poad in bash: source docs/completion.bash
_poad() {
    local commands='answer replay load check iors migrate audit explain show loc call names serve build help --version' options word=${COMP_WORDS[COMP_CWORD]}
    local before=${COMP_WORDS[COMP_CWORD - 1]}
    case ${COMP_WORDS[1]} in
        serve) options='--lanes --workers --run --state --journal --limit --help' ;;
        audit) options='--limit --conn --in --out --help' ;;
        explain) options='--arrival --call --object --picture --from --to --limit --help' ;;
        call) options='--as --hops --help' ;;
        build) options='--unproved --jobs --help' ;;
        *) options='--help' ;;
    esac
    if [ "$COMP_CWORD" = 1 ]; then
        mapfile -t COMPREPLY < <(compgen -W "$commands --help" -- "$word")
    elif [ "${COMP_WORDS[1]}" = help ]; then
        mapfile -t COMPREPLY < <(compgen -W "$commands" -- "$word")
    elif [ "$before" = --as ]; then
        mapfile -t COMPREPLY < <(compgen -W 'v i u b o' -- "$word")
    elif [[ $before = --hops || $before = --conn || $before = --arrival || $before = --call || $before = --object || $before = --from || $before = --to || $before = --limit || $before = --lanes || $before = --workers || $before = --run || $before = --jobs ]]; then
        COMPREPLY=()
    elif [[ $word = -* && $before != --journal && $before != --state && $before != --in && $before != --out ]]; then
        mapfile -t COMPREPLY < <(compgen -W "$options" -- "$word")
    else
        compopt -o filenames
        mapfile -t COMPREPLY < <(compgen -f -- "$word")
    fi
}
complete -F _poad poad ./poad

# Completion of osi(1) for bash.
_osi() {
    local word=${COMP_WORDS[COMP_CWORD]}
    case $COMP_CWORD:${COMP_WORDS[1]-} in
        1:*) mapfile -t COMPREPLY < <(compgen -W 'show judge pair help --help --version' -- "$word") ;;
        2:help) mapfile -t COMPREPLY < <(compgen -W 'show judge pair help' -- "$word") ;;
        2:judge) mapfile -t COMPREPLY < <(compgen -W '--script --live --help' -- "$word") ;;
        2:show | 2:pair) mapfile -t COMPREPLY < <(compgen -W '--help' -- "$word") ;;
        *) COMPREPLY=() ;;
    esac
}
complete -o bashdefault -o default -F _osi osi

# Completion of osi-capture(1) for bash.
_osi_capture() {
    local word=${COMP_WORDS[COMP_CWORD]} options=--help
    case ${COMP_WORDS[1]-} in
        list) options='--port --help' ;;
        show) options='--stream --port --json --columns --width --data --upper --osi --help' ;;
        judge) options='--stream --host --ignore-checksums --port --show --upper --json --pictures --osi --help' ;;
        annotate) options='--stream --host --ignore-checksums --port --output --osi --help' ;;
        watch) options='--interface --file --stream --host --ignore-checksums --port --json --by --every --idle --osi --help' ;;
        split) options='--stream --port --output --help' ;;
        join) options='--output --help' ;;
    esac
    case $COMP_CWORD:$word in
        1:*) mapfile -t COMPREPLY < <(compgen -W 'list show judge annotate watch split join --help' -- "$word") ;;
        *:-*) mapfile -t COMPREPLY < <(compgen -W "$options" -- "$word") ;;
        *) COMPREPLY=() ;;
    esac
}
complete -o bashdefault -o default -F _osi_capture osi-capture

# Completion of osi-ladders(1) for bash.
_osi_ladders() {
    local word=${COMP_WORDS[COMP_CWORD]} before=${COMP_WORDS[COMP_CWORD - 1]}
    local options='--script --left --right --judge --verdicts --states --stream --port --ignore-checksums --connection --from --to --upper --text --columns --title --output --osi --help'
    case $before:$word in
        --stream:* | --port:* | --connection:* | --from:* | --to:* | --columns:* | --title:*) COMPREPLY=() ;;
        *:-*) mapfile -t COMPREPLY < <(compgen -W "$options" -- "$word") ;;
        *) mapfile -t COMPREPLY < <(compgen -f -- "$word") ;;
    esac
}
complete -o filenames -F _osi_ladders osi-ladders

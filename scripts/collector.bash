# Completion of collector for bash: commands, then names of files.
_collector() {
    local word=${COMP_WORDS[COMP_CWORD]}
    case $COMP_CWORD:${COMP_WORDS[1]} in
        1:*) COMPREPLY=($(compgen -W "run check pass demo" -- "$word")) ;;
        4:run | 5:demo) COMPREPLY=($(compgen -W "0" -- "$word")) ;;
        2:* | 3:run | 3:pass) COMPREPLY=($(compgen -f -- "$word")) ;;
    esac
}
complete -o filenames -F _collector collector

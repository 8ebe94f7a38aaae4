# Completions of obf for bash.
_obf() {
    local word=${COMP_WORDS[COMP_CWORD]}
    COMPREPLY=()
    if [ "$COMP_CWORD" -eq 1 ]; then
        mapfile -t COMPREPLY < <(compgen -W "nodes dump build change fold ask check replay" -- "$word")
        return
    fi
    case ${COMP_WORDS[1]}:$COMP_CWORD in
        change:4 | ask:2) ;;
        fold:2) mapfile -t COMPREPLY < <(compgen -W "day month" -- "$word") ;;
        change:* | fold:* | ask:*) mapfile -t COMPREPLY < <(compgen -f -- "$word") ;;
        nodes:3 | dump:2 | build:[234] | check:2 | replay:[234]) mapfile -t COMPREPLY < <(compgen -f -- "$word") ;;
    esac
}
complete -o filenames -F _obf obf

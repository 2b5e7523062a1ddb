# Completion of ipencap's commands for bash. Goes to /usr/share/bash-completion/completions/ipencap, or is read by
# `. contrib/ipencap.bash`.
#
# The first word is a command. SETTINGS, IN and OUT are files *.toml, also in a folder; CARRIER begins with ule: or gse:.
# Numbers are not completed. Behind < and > any file is.

_ipencap() {
    local word=${COMP_WORDS[COMP_CWORD]} before=${COMP_WORDS[COMP_CWORD - 1]}
    COMPREPLY=()
    case $before in
        '<' | '>' | '>>' | '2>' | '>|')
            compopt -o filenames
            mapfile -t COMPREPLY < <(compgen -f -- "$word")
            return
            ;;
    esac
    if [ "$COMP_CWORD" -eq 1 ]; then
        mapfile -t COMPREPLY < <(compgen -W 'send receive ule check sample tables find bridge unbridge relay' -- "$word")
    elif [ "$COMP_CWORD" -eq 2 ] || { [ "$COMP_CWORD" -eq 3 ] && [ "${COMP_WORDS[1]}" = relay ]; }; then
        case ${COMP_WORDS[1]} in
            send | receive | check | tables | relay)
                compopt -o filenames
                mapfile -t COMPREPLY < <(
                    compgen -f -X '!*.toml' -- "$word"
                    compgen -d -- "$word"
                )
                ;;
            bridge | unbridge)
                compopt -o nospace
                mapfile -t COMPREPLY < <(compgen -W 'ule: gse:' -- "$word")
                ;;
        esac
    fi
}
complete -F _ipencap ipencap ./ipencap

# Completes the words of ./genesis, and of genesis as it is installed, in bash:
# source tools/completion.bash

_genesis() {
    local word=${COMP_WORDS[COMP_CWORD]} words='check try explain make run share inspect work --which --version'
    # (what is installed proves nothing)
    [[ ${COMP_WORDS[0]} != ./genesis ]] || words+=' --prove'
    COMPREPLY=()
    case $COMP_CWORD in
        1) mapfile -t COMPREPLY < <(compgen -W "$words" -- "$word") ;;
        2 | 3) [[ ${COMP_WORDS[1]} == @(check|try|explain|make|run|share|inspect|work) ]] &&
            mapfile -t COMPREPLY < <(compgen -f -- "$word") ;;
        4) [[ ${COMP_WORDS[1]} == @(make|run|share|inspect) ]] &&
            mapfile -t COMPREPLY < <(compgen -f -- "$word") ;;
    esac
}
complete -o filenames -F _genesis genesis ./genesis

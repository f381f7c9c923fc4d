# Completion of bonsai-all in bash: files and commands.
_bonsai_all() {
    local word=${COMP_WORDS[COMP_CWORD]}
    COMPREPLY=()
    case $COMP_CWORD in
    1)
        if [[ $word == --* ]]; then
            mapfile -t COMPREPLY < <(compgen -W "--help --version --where" -- "$word")
        else
            compopt -o filenames
            mapfile -t COMPREPLY < <(compgen -f -- "$word")
        fi
        ;;
    2) mapfile -t COMPREPLY < <(compgen -W "groups compress report json canon certify" -- "$word") ;;
    esac
}
complete -F _bonsai_all bonsai-all

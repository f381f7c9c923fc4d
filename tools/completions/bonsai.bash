# Completion of bonsai in bash: commands, files, and the numbers of the classes of the file.
_bonsai() {
    # commands: begin (dev/manual writes this line from the launcher)
    local commands="classes groups compress canon check fold lift report json summary trial run reach certify verify"
    # commands: end
    local word=${COMP_WORDS[COMP_CWORD]} command=${COMP_WORDS[1]}
    COMPREPLY=()
    case $COMP_CWORD in
    1) mapfile -t COMPREPLY < <(compgen -W "$commands --help --version" -- "$word") ;;
    2)
        if [[ $command == trial ]]; then
            mapfile -t COMPREPLY < <(compgen -W "4 6 8 10 12 14 16 18 20" -- "$word")
        else
            compopt -o filenames
            mapfile -t COMPREPLY < <(compgen -f -- "$word")
        fi
        ;;
    3)
        if [[ $command != classes && $command != summary && $command != trial && -f ${COMP_WORDS[2]} ]]; then
            # (a file that is not read has no classes to offer)
            local numbers
            numbers=$("${COMP_WORDS[0]}" classes "${COMP_WORDS[2]}" 2>/dev/null | sed -n 's/^class \([0-9]*\) .*/\1/p')
            mapfile -t COMPREPLY < <(compgen -W "$numbers" -- "$word")
        fi
        ;;
    4)
        case $command in
        check | fold | lift | run | reach | verify)
            compopt -o filenames
            mapfile -t COMPREPLY < <(compgen -f -- "$word")
            ;;
        esac
        ;;
    esac
}
complete -F _bonsai bonsai

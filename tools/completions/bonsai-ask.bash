# Completion of bonsai-ask in bash: options, files, classes of the file, tasks, and routers of the file.
_bonsai_ask_program() {
    # (the program bonsai beside the one that is completed knows the classes)
    local asked=${COMP_WORDS[0]}
    printf '%s' "${asked%-ask}"
}
_bonsai_ask_routers() {
    # (the last of names with commas between them)
    local word=$1 file=$2 head="" names
    [[ $word == *,* ]] && head=${word%,*},
    names=$(sed -n 's/^hostname \([^ ]*\) *$/\1/p' "$file" 2>/dev/null)
    mapfile -t COMPREPLY < <(compgen -P "$head" -W "$names" -- "${word##*,}")
}
_bonsai_ask() {
    local tasks="count solutions forwards failing route isolated hops through avoids carries lacks"
    local word=${COMP_WORDS[COMP_CWORD]} before=${COMP_WORDS[COMP_CWORD - 1]} at=1 file
    COMPREPLY=()
    while [[ $at -lt $COMP_CWORD && ${COMP_WORDS[at]} == --* ]]; do
        case ${COMP_WORDS[at]} in --junit | --way | --jobs) at=$((at + 2)) ;; *) at=$((at + 1)) ;; esac
    done
    file=${COMP_WORDS[at]}
    if [[ $COMP_CWORD -le $at ]]; then
        if [[ $word == --* ]]; then
            mapfile -t COMPREPLY < <(compgen -W "--json --junit --way --jobs --help --version --where" -- "$word")
        else
            compopt -o filenames
            mapfile -t COMPREPLY < <(compgen -f -- "$word")
        fi
    elif [[ $COMP_CWORD == $((at + 1)) ]]; then
        local classes
        classes=$("$(_bonsai_ask_program)" classes "$file" 2>/dev/null | sed -n 's/^class \([0-9]*\) prefixes \(.*\) origins .*/\1 \2/p')
        mapfile -t COMPREPLY < <(compgen -W "$classes questions" -- "$word")
    elif [[ $before == questions ]]; then
        compopt -o filenames
        mapfile -t COMPREPLY < <(compgen -f -- "$word")
    elif [[ $COMP_CWORD == $((at + 2)) ]]; then
        mapfile -t COMPREPLY < <(compgen -W "$tasks without" -- "$word")
    elif [[ $before == failing ]]; then
        mapfile -t COMPREPLY < <(compgen -W "links routers" -- "$word")
    elif [[ ${COMP_WORDS[COMP_CWORD - 2]} == without && $COMP_CWORD == $((at + 4)) || ${COMP_WORDS[COMP_CWORD - 2]} == failing ]]; then
        mapfile -t COMPREPLY < <(compgen -W "$tasks" -- "$word")
    else
        _bonsai_ask_routers "$word" "$file"
    fi
}
complete -F _bonsai_ask bonsai-ask

# Completion of the tools around bonsai in bash: options, files, and for bonsai-draw the numbers of the classes of the file.
_bonsai_tool() {
    local word=${COMP_WORDS[COMP_CWORD]} tool=${COMP_WORDS[0]}
    COMPREPLY=()
    if [[ $word == -?* ]]; then
        mapfile -t COMPREPLY < <(compgen -W "$("$tool" --help 2>/dev/null | grep -o -e '--[a-z][a-z-]*' | sort -u)" -- "$word")
    elif [[ ${tool##*/} == bonsai-draw && $COMP_CWORD == 2 && -f ${COMP_WORDS[1]} ]]; then
        # (a file that is not read has no classes to offer)
        local program numbers
        program=$(dirname "$(dirname "$(readlink -f "$(command -v "$tool")")")")/bonsai
        [[ -x $program ]] || program=bonsai
        numbers=$("${BONSAI_PROGRAM:-$program}" classes "${COMP_WORDS[1]}" 2>/dev/null | sed -n 's/^class \([0-9]*\) .*/\1/p')
        mapfile -t COMPREPLY < <(compgen -W "$numbers" -- "$word")
    else
        compopt -o filenames 2>/dev/null
        mapfile -t COMPREPLY < <(compgen -f -- "$word")
    fi
}
complete -F _bonsai_tool bonsai-diff bonsai-doubts bonsai-draw bonsai-every bonsai-export bonsai-import bonsai-json bonsai-lab bonsai-page bonsai-refusals bonsai-why

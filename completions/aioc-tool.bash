# Completions of aioc-tool for bash: its commands, the options that each of them takes, each once, and files.
# To use them in a shell: source completions/aioc-tool.bash

_aioc_tool() {
    local word=${COMP_WORDS[COMP_CWORD]} options='' left='' it
    local before=" ${COMP_WORDS[*]:2:COMP_CWORD-2} "
    COMPREPLY=()
    if ((COMP_CWORD == 1)); then
        COMPREPLY=($(compgen -W 'explain format' -- "$word"))
        return
    fi
    case ${COMP_WORDS[1]} in
    explain) options='--json --trace' ;;
    format) [[ $before == *' --check '* || $before == *' --write '* ]] || options='--check --write' ;;
    esac
    for it in $options; do
        [[ $before == *" $it "* ]] || left+=" $it"
    done
    COMPREPLY=($(compgen -W "$left" -- "$word"))
    [[ $word == -* ]] || COMPREPLY+=($(compgen -f -- "$word"))
}

complete -o filenames -F _aioc_tool aioc-tool

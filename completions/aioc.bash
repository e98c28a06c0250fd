# Completions of aioc for bash: its commands, and the options that each of them takes, each once.
# To use them in a shell: source completions/aioc.bash

_aioc() {
    local word=${COMP_WORDS[COMP_CWORD]} options='' left='' it
    local before=" ${COMP_WORDS[*]:2:COMP_CWORD-2} "
    COMPREPLY=()
    if ((COMP_CWORD == 1)); then
        COMPREPLY=($(compgen -W 'run step check project replay monitor drive resume upgrade mend sessions gen' -- "$word"))
        return
    fi
    case ${COMP_WORDS[COMP_CWORD - 1]} in
    --seed | --steps | --workers | =) return ;; # a number stands here
    esac
    case ${COMP_WORDS[1]} in
    run) options='--steps --aux --json' ;;
    step | resume) options='--seed --steps --aux --json' ;;
    drive) options='--steps' ;;
    sessions) options='--workers --seed --steps' ;;
    esac
    for it in $options; do
        [[ $before == *" $it "* ]] || left+=" $it"
    done
    COMPREPLY=($(compgen -W "$left" -- "$word"))
}

complete -F _aioc aioc

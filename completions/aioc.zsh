#compdef aioc
# Completions of aioc for zsh: its commands, and the options that each of them takes, each once.
# To use them in a shell, behind compinit: source completions/aioc.zsh

_aioc() {
    local -a commands
    commands=(
        'run:print the trace of a run with a thread for each role'
        'step:print the trace of one run'
        'check:say whether a bundle is accepted, and how large it is'
        'project:print the process of each role'
        'replay:judge the trace in a bundle'
        'monitor:judge one role by the trace in a bundle'
        'drive:find the auxiliary messages of the trace in a bundle'
        'resume:go on with the run whose entries stand in a bundle'
        'upgrade:write a bundle in version 2'
        'mend:add messages until each sequence is linked'
        'sessions:run many bundles on a pool of workers'
        'gen:make a bundle by a number and a size, run it, and print a summary'
    )
    if ((CURRENT == 2)); then
        _describe command commands
        return
    fi
    shift words
    ((CURRENT -= 1))
    case $words[1] in
    run)
        _arguments \
            '--steps=[stop after so many entries]:number: ' \
            '--aux[print auxiliary entries too]' \
            '--json[print each entry as a JSON object]'
        ;;
    step)
        _arguments \
            '--seed=[take steps by the sequence of this number]:number: ' \
            '--steps=[stop after so many entries]:number: ' \
            '--aux[print auxiliary entries too]' \
            '--json[print each entry as a JSON object]'
        ;;
    drive)
        _arguments '--steps=[allow so many visible entries]:number: '
        ;;
    sessions)
        _arguments \
            '--workers=[let so many workers run them]:number: ' \
            '--seed=[take steps by the sequence of this number]:number: ' \
            '--steps=[stop each after so many entries]:number: '
        ;;
    resume)
        _arguments \
            '--seed=[take steps by the sequence of this number]:number: ' \
            '--steps=[stop after so many entries]:number: ' \
            '--aux[print auxiliary entries too]' \
            '--json[print each entry as a JSON object]'
        ;;
    esac
}

if [[ $funcstack[1] == _aioc ]]; then
    _aioc "$@"
else
    compdef _aioc aioc
fi

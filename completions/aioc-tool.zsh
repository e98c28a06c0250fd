#compdef aioc-tool
# Completions of aioc-tool for zsh: its commands, the options that each of them takes, each once, and files.
# To use them in a shell, behind compinit: source completions/aioc-tool.zsh

_aioc_tool() {
    local -a commands
    commands=(
        'explain:tell what is wrong with a bundle'
        'format:lay bundles out'
    )
    if ((CURRENT == 2)); then
        _describe command commands
        return
    fi
    shift words
    ((CURRENT -= 1))
    case $words[1] in
    explain)
        _arguments \
            '--json[tell it as a JSON object]' \
            '--trace[judge the trace section as well]' \
            ':file:_files'
        ;;
    format)
        _arguments \
            '(--write)--check[name the files that are not in the layout]' \
            '(--check)--write[replace the files that are not in the layout]' \
            '*:file:_files'
        ;;
    esac
}

if [[ $funcstack[1] == _aioc_tool ]]; then
    _aioc_tool "$@"
else
    compdef _aioc_tool aioc-tool
fi

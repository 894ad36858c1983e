# Completes commands and options of dq_server in bash. They are those of its own help; values are completed as files.

_dq_server() {
    local current=${COMP_WORDS[COMP_CWORD]} words=
    if [ "$COMP_CWORD" -eq 1 ]; then
        words=$(dq_server --help 2>&1 < /dev/null | sed -n '/^Commands:/,/^$/s/^  \([a-z]\{1,\}\) .*/\1/p')
    elif [[ $current == -* ]]; then
        words=$(dq_server "${COMP_WORDS[1]}" --help 2>&1 < /dev/null | sed -n 's/^ *\(-[a-z], \)\{0,1\}\(--[a-z-]\{1,\}\).*/\2/p')
    fi
    mapfile -t COMPREPLY < <(compgen -W "$words" -- "$current")
}

complete -o default -F _dq_server dq_server

# Completes the options of addr2line_live in bash, and the file of -e. bash-completion loads this
# file from share/bash-completion/completions/addr2line_live; `source` loads it without
# bash-completion.

# The options. tools/check_docs.py compares them with the program.
_addr2line_live_options='-a --addresses -f --functions -i --inlines -p --pretty-print -s --basenames
    --linkage -e --exe --cache -h --help -V --version'

# Completes the word $2 after the word $3.
_addr2line_live() {
    local word=$2 before=$3
    COMPREPLY=()
    # bash splits --exe=FILE into three words.
    if [[ $word == '=' ]]; then
        before=${COMP_WORDS[COMP_CWORD - 1]}
        word=
    elif [[ $before == '=' ]]; then
        before=${COMP_WORDS[COMP_CWORD - 2]}
    fi
    case $before in
        --exe | -e | -[afips]*e)
            compopt -o filenames
            mapfile -t COMPREPLY < <(compgen -f -- "$word")
            ;;
        --cache) ;;
        *) mapfile -t COMPREPLY < <(compgen -W "$_addr2line_live_options" -- "$word") ;;
    esac
}

complete -F _addr2line_live addr2line_live

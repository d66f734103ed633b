# shellcheck shell=bash
# Completion of papr's commands, options and files, and of its tools by names of their own, in bash.

_papr_tools='why bad-line find-order decode receipts history picture groups diff from-qemu entries cut'

# _papr_words WORD..: completes by these words.
_papr_words() {
    mapfile -t COMPREPLY < <(compgen -W "$*" -- "${COMP_WORDS[COMP_CWORD]}")
}

_papr_files() {
    compopt -o filenames 2>/dev/null
    mapfile -t COMPREPLY < <(compgen -f -- "${COMP_WORDS[COMP_CWORD]}")
}

# _papr_of_tool COMMAND..: completes by the options that a tool's help lists, or by files.
_papr_of_tool() {
    if [[ ${COMP_WORDS[COMP_CWORD]} == -* ]]; then
        _papr_words "$("$@" --help 2>/dev/null | grep -oE -- '--[a-z][a-z-]+' | sort -u)"
    else
        _papr_files
    fi
}

_papr() {
    local command=${COMP_WORDS[1]}
    COMPREPLY=()
    if [ "$COMP_CWORD" -eq 1 ]; then
        _papr_words "run par check set image drill $_papr_tools help --help --version"
    elif [[ " $_papr_tools " == *" $command "* ]]; then
        _papr_of_tool "$1" "$command"
    elif [ "$command" = help ]; then
        _papr_words "run par check set image drill $_papr_tools"
    elif [ "$command" = image ] && [ "$COMP_CWORD" -eq 2 ]; then
        _papr_words old new
    elif [[ ${COMP_WORDS[COMP_CWORD]} == -* ]]; then
        _papr_words -o --output --help
    elif [ "$command" != drill ] || [[ ${COMP_WORDS[COMP_CWORD - 1]} == -o ]]; then
        _papr_files
    fi
}

_papr_tool() {
    COMPREPLY=()
    _papr_of_tool "$1"
}

complete -F _papr papr
complete -o filenames -F _papr_tool papr-from-qemu papr-history papr-picture papr-receipts papr-why papr-bad-line \
    papr-find-order papr-cut papr-entries papr-decode papr-groups papr-diff

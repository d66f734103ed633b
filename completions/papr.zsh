#compdef papr papr-from-qemu papr-history papr-picture papr-receipts papr-why papr-bad-line papr-find-order papr-cut papr-entries papr-decode papr-groups papr-diff
# Completion of papr's commands, options and files, and of its tools by names of their own, in zsh.

_papr_commands() {
    _values 'command' \
        'run[run a trace]' \
        'par[run it with a thread for each processor]' \
        'check[judge replies: those of a good run or not]' \
        'set[run partitions whose tables share one pool]' \
        'image[write the table at the end of a trace: old or new layout]' \
        'drill[run a generated trace: SEED LINES]' \
        'why[say why a trace is refused, or a line answered so]' \
        'bad-line[find the first line whose reply is wrong]' \
        'find-order[judge replies without receipts]' \
        'decode[explain entries, receipts or replies]' \
        'receipts[write receipts as a table]' \
        'history[draw the history of one entry]' \
        'picture[draw a whole run]' \
        'groups[say which groups are fullest]' \
        'diff[compare two texts of replies]' \
        'from-qemu[make a trace of a log of QEMU]' \
        'entries[open a trace with a table of KVM]' \
        'cut[cut a long trace into parts]' \
        'help[help on a command]'
}

# _papr_of_tool COMMAND..: completes by the options that a tool's help lists, or by files.
_papr_of_tool() {
    if [[ $PREFIX == -* ]]; then
        compadd -- ${(u)${(M)${=$("$@" --help 2>/dev/null)}:#--[a-z]*}//[^a-z-]/}
    else
        _files
    fi
}

_papr() {
    if [[ $service != papr ]]; then
        _papr_of_tool $words[1]
    elif ((CURRENT == 2)); then
        _papr_commands
    elif [[ $words[2] == help ]]; then
        _papr_commands
    elif [[ $words[2] != (run|par|check|set|image|drill) ]]; then
        _papr_of_tool $words[1] $words[2]
    elif [[ $words[2] == image ]] && ((CURRENT == 3)); then
        _values 'layout' 'old[of Power ISA 2.07]' 'new[of Power ISA 3.0]'
    elif [[ $PREFIX == -* ]]; then
        compadd -- -o --output --help
    elif [[ $words[2] == drill && $words[CURRENT-1] != -o ]]; then
        case $CURRENT in
            3) _message 'seed: a number below 2^64' ;;
            4) _message 'lines: a number up to 100,000' ;;
        esac
    else
        _files
    fi
}

_papr "$@"

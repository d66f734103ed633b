# shellcheck shell=bash
# The command papr in all its uses: the script papr begins it, and serves just the plainest use alone.
#
#   launcher.bash TOP TOOLS PROGRAM command WORD..
#   launcher.bash TOP TOOLS PROGRAM ended STATUS SKIP COMMAND
#
# The second says how the plain use ended that gave this status; it read standard input from byte SKIP on.
set -u
top=$1 tools=$2 program=$3 use=$4
shift 4
manual='man papr'
if [ -f "$tools/build" ]; then
    manual="man $top/man/papr.1"
    # shellcheck source=tools/current.sh
    . "$tools/current.sh"
else
    is_current() { [ -x "$program" ]; }
fi

# The program's commands, and each tool's command with its file.
answered=(run par check set image drill)
declare -A file_of=([why]=why [history]=entry-history [picture]=run-picture [receipts]=receipts [decode]=decode
    [diff]=diff [groups]=groups [bad-line]=bad-line [find-order]=find-order [cut]=cut-trace [from-qemu]=qemu-log-to-trace [entries]=htab-to-entries)

most_bytes=16777217 # one more than the program takes
made=()             # files to be removed at the end
output=             # the file that -o names

say() {
    printf 'papr: %s\n' "$@" >&2
}

# telling FUNCTION WORD..: one of those that stand apart, since most runs need none of them.
telling() {
    # shellcheck source=tools/telling.bash
    . "$tools/telling.bash"
    "$@"
}

# ---- the program

# have_program: sees to it that there is a program, or ends.
have_program() {
    if is_current; then
        return
    elif [ -f "$tools/build" ]; then
        build
    else
        say "the program isn't there: $program"
        exit 127
    fi
}

build() {
    local status
    if ! command -v rt >/dev/null || ! command -v python3 >/dev/null; then
        say "the program has to be built, and the Rattle toolchain (rt, and python3) isn't on the path" \
            "README.md says which kit of it; a kit's bin/ has rt, and rt doc prints its first page"
        exit 127
    fi
    if ! mkdir -p "$top/out" 2>/dev/null || ! [ -w "$top/out" ] || ! [ -w "$top/crates" ]; then
        say "the program has to be built, and this folder can't be written: $top"
        exit 126
    fi
    as_child python3 "$tools/build" </dev/null >&2
    status=$?
    case $status in
        0) ;;
        129 | 130 | 143) end_by "$status" ;;
        *)
            # (A build that is killed has said nothing.)
            [ "$status" -lt 129 ] || say "the build was ended by signal $((status - 128))"
            exit 126
            ;;
    esac
}

# as_child COMMAND..: runs a command, and gives its status. A signal that would end this script ends the command.
as_child() {
    local name
    ended_by=
    for name in HUP INT TERM; do
        # shellcheck disable=SC2064
        trap "ended_by=$name; kill -s $name \$! 2>/dev/null" "$name"
    done
    # (A command in the background would ignore the interrupt, and have no standard input.)
    if [ -e /dev/fd/0 ]; then
        (trap - INT QUIT && exec "$@") <&0 &
    else
        (trap - INT QUIT && exec "$@") <&- &
    fi
    # A signal ends the wait before the command has ended. (The shell would say by which one the command did.)
    {
        wait "$!"
        while [ -n "$ended_by" ] && kill -s 0 "$!"; do
            wait "$!"
        done
        trap - HUP INT TERM
        wait "$!"
    } 2>/dev/null
}

# end_by STATUS: ends by the signal that ended the command, so that a loop around this script ends too.
end_by() {
    remove_made
    trap - EXIT
    [ -z "$ended_by" ] || kill -s "$ended_by" "$$"
    exit "$1"
}

# ---- input and output

remove_made() {
    [ "${#made[@]}" -eq 0 ] || rm -f -- "${made[@]}"
}

# will_remove FILE: removes a file at the end.
will_remove() {
    made+=("$1")
    trap remove_made EXIT
}

# make_temporary: a file of one's own for input that can't be read twice, in `again`.
make_temporary() {
    again=${TMPDIR:-/tmp}/papr.$$.$RANDOM$RANDOM
    # (A new one, or none: `set -C`.)
    if (umask 077 && set -C && : >"$again") 2>/dev/null; then
        will_remove "$again"
    else
        again=''
        return 1
    fi
}

# must_be_readable FILE: ends where it can't be read.
must_be_readable() {
    local reason=
    if [ ! -e "$1" ]; then
        reason='No such file or directory'
    elif [ -d "$1" ]; then
        reason='Is a directory'
    elif [ ! -r "$1" ]; then
        reason='Permission denied'
    fi
    [ -z "$reason" ] || { say "$1: $reason" && exit 3; }
}

# read_front: takes the first bytes of standard input, up to a byte 0: `front`, with `ended` by one or not. What they say
# expands the input is in `expands`; nothing for any other.
read_front() {
    local LC_ALL=C
    ended=
    if IFS= read -r -d '' -n 5 front && [ "${#front}" -lt 5 ]; then
        ended=yes
    fi
    case $front in
        $'\xfd7zXZ') expands=xz ;;
        $'\x1f\x8b\x08'*) expands=gzip ;;
        'BZh'[1-9]*) expands=bzip2 ;;
        $'\x28\xb5\x2f\xfd'*) expands=zstd ;;
        *) expands= ;;
    esac
}

# whole_input: standard input, with what read_front took of it.
whole_input() {
    printf '%s' "$front"
    [ -z "$ended" ] || printf '\0'
    cat
}

no_room() {
    say "$name: no temporary file can be made in ${TMPDIR:-/tmp}"
    exit 3
}

# not_copied NAME: ends where the temporary file doesn't take what a file has.
not_copied() {
    say "$1: it can't be copied into ${TMPDIR:-/tmp}"
    exit 3
}

# expanded NAME: adds what a compressed input has to the temporary file, as far as the program reads, or ends.
expanded() {
    local said ends
    command -v "$expands" >/dev/null || { say "$1: $expands, which expands it, isn't installed" && exit 3; }
    said=$(
        exec 2>&1
        whole_input 2>/dev/null | "$expands" -dc | head -c "$most_bytes" >>"$again"
        ends=("${PIPESTATUS[@]}")
        [ "${ends[2]}" -eq 0 ] || exit 2
        # (141: it had more than is read.)
        [ "${ends[1]}" -eq 0 ] || [ "${ends[1]}" -eq 141 ]
    )
    case $? in
        0) ;;
        2) not_copied "$1" ;;
        *)
            said=${said#$'\n'} said=${said%%$'\n'*} said=${said#"$expands: "}
            # (What the commands call their standard input.)
            said=${said#'(stdin): '} said=${said#'stdin: '} said=${said#'/*stdin*\ : '}
            say "$1: $said"
            exit 3
            ;;
    esac
}

# contents NAME: adds what standard input has, expanded, to the temporary file, or ends.
contents() {
    read_front
    if [ -n "$expands" ]; then
        expanded "$1"
    else
        { whole_input | head -c "$most_bytes" >>"$again"; } 2>/dev/null || not_copied "$1"
    fi
}

# contents_of FILE: the same of a file, or of standard input where it is `-`.
contents_of() {
    if [ "$1" = - ]; then
        contents 'standard input'
    else
        contents "$1" <"$1"
    fi
}

# joined TRACE REPLIES: copies both as `check` reads them.
joined() {
    local between=replies
    contents_of "$1"
    [ -z "$(tail -c 1 "$again")" ] || between=$'\nreplies'
    echo "$between" 2>/dev/null >>"$again" || not_copied "$1"
    contents_of "$2"
}

# open_input [FILE [REPLIES]]: makes standard input what is named. Afterwards `name` is what messages call it, and
# `again` a file from which it can be read once more, from byte `skip` on; a copy is made there if `is_copied`.
open_input() {
    local file
    name=${1:--} again='' skip=0 is_copied='' front='' ended=''
    for file; do
        [ "$file" = - ] || must_be_readable "$file"
    done
    if [ $# -eq 2 ]; then
        make_temporary || no_room
        joined "$@"
        exec <"$again" || exit 3
        return
    fi
    if [ "$name" = - ]; then
        name='standard input'
        can_reread
    else
        exec <"$1" || exit 3
        can_reread
        [ "$again" != /dev/fd/0 ] || again=$1
    fi
}

# can_reread: sees to it that standard input can be read once more, expanded.
can_reread() {
    local expands=
    if [ -f /dev/fd/0 ]; then
        again=/dev/fd/0
        { read -r -u 3 _ skip 3</proc/self/fdinfo/0; } 2>/dev/null || skip=0
        if [ "$skip" = 0 ]; then
            read_front </dev/fd/0
        else
            read_front < <(read_again 2>/dev/null)
        fi
        if [ -n "$expands" ]; then
            front='' ended=''
            expand_input
        fi
    elif [ -p /dev/fd/0 ] || [ -S /dev/fd/0 ] || [ -t 0 ]; then
        [ -t 0 ] || read_front
        if [ -n "$expands" ]; then
            expand_input
        else
            make_temporary && is_copied=yes
        fi
    elif [ -c /dev/fd/0 ]; then
        again=/dev/fd/0
    fi
}

# expand_input: makes standard input what it has, expanded.
expand_input() {
    make_temporary || no_room
    expanded "$name"
    skip=0 front='' ended=''
    exec <"$again" || exit 3
}

# copying: hands on standard input and copies it. A copy that has no room isn't the input, and is removed.
copying() {
    whole_input 2>/dev/null | tee -- "$again" 2>/dev/null
    # (Another status: the program has read enough.)
    [ $? -ne 1 ] || rm -f -- "$again"
}

# read_again: writes the input once more.
read_again() {
    tail -c "+$((skip + 1))" -- "$again" | head -c "$most_bytes"
}

# open_output FILE: makes standard output a new file beside FILE, `part`, that takes its `place` once it is whole.
open_output() {
    place=$1
    if [ -d "$1" ]; then
        say "$1: Is a directory"
        exit 4
    elif [ -e "$1" ] && [ ! -f "$1" ]; then
        # A device or a pipe can't be replaced.
        part='' place=''
        { exec >"$1"; } 2>/dev/null || not_written
        return
    fi
    [ ! -L "$1" ] || place=$(readlink -f -- "$1") || not_written
    make_part || not_written
    will_remove "$part"
    [ ! -f "$place" ] || chmod --reference="$place" /dev/fd/1 2>/dev/null
}

not_written() {
    say "$output: it can't be written"
    exit 4
}

# make_part: makes standard output a file of one's own in the folder of `place`. Where it takes the place of a file it
# has that one's mode later, and meanwhile nobody else reads it.
make_part() {
    local usual
    usual=$(umask)
    part=${place%"${place##*/}"}.papr.$$.$RANDOM$RANDOM
    [ ! -f "$place" ] || umask 077
    # (A new one, or none: `set -C`.)
    set -C
    if ! { exec >"$part"; } 2>/dev/null; then
        part=''
    fi
    set +C
    umask "$usual"
    [ -n "$part" ] && [ -f /dev/fd/1 ]
}

# ---- a run

# run_program WORD..: runs the program, and gives its status. On a terminal it is told, from the first second on,
# how far it is.
run_program() {
    local to shown status
    if [ -t 1 ] && [ -t 2 ]; then
        exec {to}> >(telling show)
        shown=$!
        as_child "$program" "$@" >&"$to"
        status=$?
        exec {to}>&-
        wait "$shown"
        return "$status"
    fi
    as_child "$program" "$@"
}

# had_enough STATUS: whether a run ended so because the reader of its output did. Then nothing is said, and the status is
# that of SIGPIPE, as for other commands: no answer is given that wasn't read.
had_enough() {
    [ "$1" -eq 4 ] && { [ -p /dev/fd/1 ] || [ -S /dev/fd/1 ]; }
}

# answer WORD..: runs the program with these words, and ends with its status.
answer() {
    local status
    have_program
    [ -z "$output" ] || open_output "$output"
    if [ -n "$is_copied" ]; then
        run_program "$@" < <(copying)
    elif [ -n "$front$ended" ] && [ ! -f /dev/fd/0 ]; then
        run_program "$@" < <(whole_input)
    else
        run_program "$@"
    fi
    status=$?
    [ "$status" -ne 0 ] || [ -n "$part" ] || exit 0
    had_enough "$status" && status=141
    [ "$status" -eq 0 ] || telling tell "$status" "$@"
    [ "$status" -lt 129 ] || end_by "$status"
    if [ -n "$part" ] && { [ "$status" -eq 0 ] || [ "$status" -eq 6 ]; }; then
        mv -f -T -- "$part" "$place" 2>/dev/null || not_written
    fi
    exit "$status"
}

# ---- the command line

# is_number WORD: a number as a trace writes it, below 2^64.
is_number() {
    local end=18446744073709551616
    # Both have 20 digits, so texts compare as numbers.
    # shellcheck disable=SC2071
    [[ $1 =~ ^(0[xX][0-9a-fA-F]{1,16}|[0-9]{1,20})$ ]] && { [ "${#1}" -lt 20 ] || [[ $1 < $end ]]; }
}

# is_length WORD: a number up to 100,000.
is_length() {
    is_number "$1" || return 1
    if [[ $1 = 0[xX]* ]]; then
        [[ $1 =~ ^0[xX]0*([0-9a-fA-F]{0,5})$ ]] && [ $((16#0${BASH_REMATCH[1]})) -le 100000 ]
    else
        [[ $1 =~ ^0*([0-9]{0,6})$ ]] && [ $((10#0${BASH_REMATCH[1]})) -le 100000 ]
    fi
}

# is_command WORD..: whether the program takes these words.
is_command() {
    local LC_ALL=C
    case $#,${1-} in
        1,run | 1,par | 1,check | 1,set) true ;;
        2,image) [ "$2" = old ] || [ "$2" = new ] ;;
        3,drill) is_number "$2" && is_length "$3" ;;
        *) false ;;
    esac
}

# take_output OPTION [FILE]: where the output goes.
take_output() {
    [ -n "${2-}" ] || telling wrong "$1 wants a file"
    output=$2
    case $2 in - | /dev/stdout) output='' ;; esac
}

# take_words WORD..: what stands behind a command: `words`, and the output.
take_words() {
    words=()
    while [ $# -gt 0 ]; do
        case $1 in
            -o | --output)
                take_output "${@:1:2}"
                shift
                ;;
            -o*) take_output -o "${1#-o}" ;;
            --output=*) take_output --output "${1#--output=}" ;;
            --)
                words+=("${@:2}")
                break
                ;;
            -h | --help)
                telling help "$command"
                exit 0
                ;;
            -?*) telling wrong "no option '$1'" ;;
            *) words+=("$1") ;;
        esac
        shift
    done
}

# run_command COMMAND WORD..: one of the program's.
run_command() {
    local command=$1 most=1 first=()
    take_words "${@:2}"
    case $command in
        check) most=2 ;;
        image)
            first=("${words[@]:0:1}") words=("${words[@]:1}")
            is_command image "${first[@]}" || telling wrong "image wants a layout, old or new, and then at most one file"
            ;;
        drill)
            is_command drill "${words[@]}" || telling wrong 'drill wants two numbers: a seed, and lines, at most 100,000'
            first=("${words[@]}") words=() name=drill again='' is_copied='' front='' ended=''
            ;;
    esac
    [ "${#words[@]}" -le "$most" ] || telling wrong "$command wants at most $most file$([ "$most" -eq 1 ] || echo s)"
    [ "$command" = drill ] || open_input "${words[@]}"
    answer "$command" "${first[@]}"
}

# run_tool COMMAND WORD..
run_tool() {
    if ! command -v python3 >/dev/null; then
        say "papr $1 needs Python 3, which isn't on the path"
        exit 127
    fi
    PAPR_NAME="papr $1" exec "$tools/${file_of[$1]}" "${@:2}"
}

ended_by='' part='' place=''
if [ "$use" = ended ]; then
    name='standard input' again=/dev/fd/0 skip=$2
    ! had_enough "$1" || exit 141
    telling tell "$1" "$3"
    exit "$1"
fi
[ $# -gt 0 ] || telling wrong 'no command is named'
case $1 in
    run | par | check | set | image | drill)
        run_command "$@"
        ;;
    -h | --help) telling help ;;
    help) telling help "${@:2}" ;;
    --version) telling version ;;
    --program)
        have_program
        [[ $program = /* ]] || program=$PWD/$program
        printf '%s\n' "$program"
        ;;
    *)
        [ -n "${1:+${file_of[$1]-}}" ] || telling no_command "$1"
        run_tool "$@"
        ;;
esac

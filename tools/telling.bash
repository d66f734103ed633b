# shellcheck shell=bash disable=SC2154
# What the command papr says: help, its version, what it doesn't take, how far a run is, and how one ended.
#
# papr reads this file where it has one of these to say, and calls a function of it.

# ---- help

# help [COMMAND]: of all, or of one.
help() {
    case ${1-} in
        '') help_of_all ;;
        run | par | check | set | image | drill) help_of "$1" ;;
        help) echo 'usage: papr help [COMMAND]' ;;
        *)
            [ -n "${file_of[$1]-}" ] || no_command "$1"
            run_tool "$1" --help
            ;;
    esac
}

help_of_all() {
    cat <<'END'
usage: papr COMMAND [ARGUMENT..]
       papr help [COMMAND]
       papr --version

The hypervisor side of the hashed page table of a paravirtual Power guest, proved.

run and judge traces
  run [TRACE]                      answer the lines of a trace, one after the other
  par [TRACE]                      the same with a thread for each processor
  check [TRACE REPLIES | JUDGED]   can these be the replies of a run of the trace?
  set [SET]                        run up to eight partitions that share table memory
  image old|new [TRACE]            write the table at the end of a trace
  drill SEED LINES                 run a generated trace, and count the answers

make a trace
  from-qemu    of the log of a guest under QEMU
  entries      of the page table of a guest under KVM
  cut          a long trace into parts

look at a run
  why          why is a trace refused, or a line of it answered so
  bad-line     find the first line whose reply is wrong
  find-order   judge replies without receipts, of any hypervisor
  decode       doublewords, entries, receipts and replies in words
  receipts     as a table: CSV, JSON, SQLite
  history      a picture of one entry
  picture      a picture of a whole run
  groups       which groups of the table are fullest, at any line
  diff         compare two texts of replies, by line and by entry

The first six read standard input where no file or - is named, and take -o FILE: the output goes there, whole
or not at all. All commands expand what is compressed by xz, gzip, bzip2 or zstd, whatever its name is.
Manual pages: papr(1), papr-NAME(1) for a command, papr-trace(5) and papr-replies(5) for the formats.
END
}

# help_of COMMAND: one of the program's.
help_of() {
    local output='  -o, --output FILE   write there, whole or not at all (default, or -: standard output)'
    case $1 in
        run) cat <<END ;;
usage: papr run [-o FILE] [TRACE]

Runs a trace, line after line, and writes a reply for each line, with the receipts of the
entries that it tried.

$output
END
        par) cat <<END ;;
usage: papr par [-o FILE] [TRACE]

Runs a trace with a thread for each processor, and writes the replies. They are those of a good
run, which may be another one each time.

$output
END
        check) cat <<END ;;
usage: papr check [-o FILE] [TRACE REPLIES | JUDGED]

Says whether the replies can be those of a run of the trace, whoever wrote them: good, or bad
section K (status 6). JUDGED is one file: a trace, a line "replies", and the replies.

$output
END
        set) cat <<END ;;
usage: papr set [-o FILE] [SET]

Runs up to eight partitions, whose page tables share one pool of memory, and writes the replies.

$output
END
        image) cat <<END ;;
usage: papr image old|new [-o FILE] [TRACE]

Runs a trace, and writes its page table at the end, in the layout of Power ISA 2.07 (old) or
3.0 (new).

$output
END
        drill) cat <<END ;;
usage: papr drill SEED LINES [-o FILE]

Makes a trace of so many lines, at most 100,000, from a seed, runs it, and writes a summary.

$output
END
    esac
}

# version: the version, the commit, and the toolchain that proved the program.
version() {
    local number='' commit='' kit=''
    if [ -f "$tools/build" ]; then
        read -r number <"$top/VERSION"
        if [ -e "$top/.git" ]; then
            commit=$(git -C "$top" describe --always --abbrev=12 --dirty --exclude '*' 2>/dev/null)
        else
            { read -r commit <"$top/COMMIT"; } 2>/dev/null
        fi
        ! is_current || { read -r kit <"$top/out/build.kit"; } 2>/dev/null
    elif [ -f "$tools/version" ]; then
        { read -r number && read -r commit && read -r kit; } <"$tools/version"
    fi
    echo "papr ${number:-of an unknown version}"
    [ -z "$commit" ] || echo "commit $commit"
    if [ -n "$kit" ]; then
        echo "proved with $kit"
    elif [ ! -x "$program" ]; then
        echo "the program isn't built yet"
    fi
}

# ---- a command line that isn't taken

# wrong TEXT..: refuses the command line as the program does, on standard output and by the status.
wrong() {
    say "$@" "for help: papr --help, or $manual"
    printf 'papr: usage\n' 2>/dev/null || exit 4
    exit 1
}

# distance ONE OTHER: how many letters have to be added, left out, replaced or swapped with the next one, in `steps`.
distance() {
    local one=$1 other=$2 i j cost least
    local -A table
    for ((i = 0; i <= ${#one}; i++)); do
        for ((j = 0; j <= ${#other}; j++)); do
            if ((i == 0 || j == 0)); then
                table[$i,$j]=$((i + j))
                continue
            fi
            cost=1
            [ "${one:i-1:1}" != "${other:j-1:1}" ] || cost=0
            least=$((table[$((i - 1)),$((j - 1))] + cost))
            ((table[$((i - 1)),$j] + 1 >= least)) || least=$((table[$((i - 1)),$j] + 1))
            ((table[$i,$((j - 1))] + 1 >= least)) || least=$((table[$i,$((j - 1))] + 1))
            if ((i > 1 && j > 1)) && [ "${one:i-2:2}" = "${other:j-1:1}${other:j-2:1}" ]; then
                ((table[$((i - 2)),$((j - 2))] + 1 >= least)) || least=$((table[$((i - 2)),$((j - 2))] + 1))
            fi
            table[$i,$j]=$least
        done
    done
    steps=${table[${#one},${#other}]}
}

# no_command WORD: refuses it, and names the nearest command.
no_command() {
    local best='' nearest=3 command steps
    if [[ $1 = -* ]]; then
        wrong "no option '$1'"
    elif [ -f "$1" ]; then
        wrong "no command '$1'; did you mean 'papr run $1'?"
    fi
    [ "${#1}" -gt 20 ] || for command in "${answered[@]}" "${!file_of[@]}" help; do
        distance "$1" "$command"
        [ "$steps" -ge "$nearest" ] || best=$command nearest=$steps
    done
    wrong "no command '$1'${best:+; did you mean '$best'?}"
}

# ---- a run that takes long

# show: hands on what the program writes, and says how far it is as long as nothing comes.
show() {
    local first='' is_told=''
    until IFS= read -r -N 1 -t 1 first; do
        # (A wait that is over has such a status, an end of the program without a word hasn't.)
        [ $? -gt 128 ] || break
        is_told=yes
        printf '\r\033[Kpapr: %s' "$(progress)" >&2
    done
    [ -z "$is_told" ] || printf '\r\033[K' >&2
    printf '%s' "$first"
    cat
}

# progress: how many bytes the program has read, and for how long it runs. The input's place is that of this process.
progress() {
    local bytes=0 size=
    if [ -n "$is_copied" ]; then
        bytes=$(wc -c 2>/dev/null <"$again")
    elif [ -f "$again" ]; then
        size=$(wc -c <"$again")
        { read -r -u 3 _ bytes 3<"/proc/$$/fdinfo/0"; } 2>/dev/null
    fi
    if [ -n "$size" ] && [ "$bytes" -ge "$size" ]; then
        echo "$(megabytes "$bytes") read, running, $SECONDS s"
    else
        echo "$(megabytes "$bytes")${size:+ of $(megabytes "$size")} read, $SECONDS s"
    fi
}

megabytes() {
    echo "$(($1 / 1000000)).$(($1 / 100000 % 10)) MB"
}

# ---- how a run ended

# refusal WORD..: what the program, run with these words, said of an input that it refused.
refusal() {
    if [ -n "$part" ]; then
        head -n 1 -- "$part"
    elif [ -e "$again" ]; then
        read_again | "$program" "$@" 2>/dev/null | head -n 1
    fi
}

# explain WORD..: says which line is refused, and what is expected there.
explain() {
    local told
    told=$(refusal "$@")
    told=${told#papr: }
    say "$name: ${told:-refused, for the reason on standard output}"
    if [[ $told = line* ]] && [ -e "$again" ] && command -v python3 >/dev/null; then
        read_again | "$tools/why" --known "$told" --under "$1" - >&2
    fi
}

# tell STATUS WORD..: says how the program ended that was run with these words.
tell() {
    local status=$1 reason
    shift
    case $status in
        1) say "the program doesn't take these words: $*" ;;
        2) explain "$@" ;;
        3)
            reason="it can't be read"
            [ ! -d /dev/fd/0 ] || reason='Is a directory'
            [ -e /dev/fd/0 ] || reason='Bad file descriptor'
            say "$name: $reason"
            ;;
        4)
            reason='write error'
            [ -e /dev/fd/1 ] || reason='Bad file descriptor'
            say "${output:-standard output}: $reason"
            ;;
        5) say 'out of memory' ;;
        6) say "$name: these are not the replies of a good run; papr bad-line TRACE REPLIES finds the line" ;;
        126 | 127) say "the program can't be run: $program" ;;
        141) ;; # its reader had enough
        *) [ -n "$ended_by" ] || [ "$status" -lt 129 ] || say "the program was ended by signal $((status - 128))" ;;
    esac
}


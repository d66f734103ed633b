# shellcheck shell=sh disable=SC2154,SC3013
# Whether a checkout's program is built; papr and launcher.bash read this file there.

# is_current: whether the program is there, and newer than each source and definition that it was built from. The build
# lists these in out/build.sources, as an assignment of names without blanks; the shell compares times faster than a
# process of its own. (Another proof of the same crates doesn't change the program; the next build proves it.)
is_current() {
    [ -x "$program" ] && [ -f "$top/out/build.sources" ] || return
    sources=
    # shellcheck source=/dev/null
    . "$top/out/build.sources"
    [ -n "$sources" ] || return
    for source in $sources; do
        [ "$program" -nt "$top/$source" ] || return
    done
}

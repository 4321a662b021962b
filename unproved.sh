# For the script `camr`, which reads it: the program without any proof, as a quick look. It is compiled from its sources with
# checks as it runs, and what was compiled is kept in .camr-build/unproved until a source changes.

# Takes a copy of the executable that `rt try` made in "$work": while the program waits at "$work/manifest" the executable is
# there, and with the end of `rt try` it is gone.
take_executable() {
    exec 3>"$work/manifest"
    found=$(find "$work" -type f -perm -u+x -print | head -n 1)
    [ -z "$found" ] || cp "$found" "$work/program"
}

# compile PROGRAM: compiles the program. `rt try` keeps nothing of what it compiled, and has no option to: it runs the program
# in a folder that it removes. So it is given a manifest to be read that is a pipe, at which the program waits.
compile() {
    mkdir -p "$kept/unproved" && work=$(mktemp -d "$kept/unproved/try.XXXXXX") && mkfifo "$work/manifest" || return 1
    take_executable &
    taker=$!
    trap 'kill "$taker"; rm -rf "$work"; exit 2' HUP INT TERM
    lines_below "$1" <"$top/crates.txt" >"$work/begun"
    case $1 in
    camr_inspect) command=explain ;;
    *) command=check ;;
    esac
    (cd "$top/crates/$1" && TMPDIR=$work rt try --seconds 3600 -- "$command" "$work/manifest") </dev/null >"$work/said" 2>&1
    # if the program was not run, nobody else opens the pipe
    : <>"$work/manifest"
    wait "$taker"
    trap - HUP INT TERM
    if [ -x "$work/program" ] && mv "$work/program" "$kept/unproved/$1" && mv "$work/begun" "$kept/unproved/$1.built"; then
        rm -rf "$work"
        return 0
    fi
    mv "$work/said" "$kept/unproved/log"
    rm -rf "$work"
    grep -v '^run=' "$kept/unproved/log" | tail -n 1 | sed 's/^/camr: no program: /'
    echo "camr: rt try made none that can be kept; $kept/unproved/log has all that it said"
    return 1
}

# unproved PROGRAM WORD..: runs the program with these words. A check that fails as it runs ends it with SIGABRT. As in the proved
# program a request for more memory than there is gives none.
unproved() {
    made=$kept/unproved/$1
    if is_current "$top" "$made" "$1"; then
        echo 'camr: nothing is proved here: the program was compiled from its sources as they stand' >&2
    else
        echo 'camr: nothing is proved here: the program is compiled from its sources as they stand, which takes a minute or two' >&2
        compile "$1" >&2 || return 2
    fi
    shift
    export ASAN_OPTIONS=abort_on_error=1:allocator_may_return_null=1:symbolize=0
    exec "$made" "$@"
}

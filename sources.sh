# For the scripts that read it, as `camr`, `bench/run` and `.ci/must-not-compile`: which crates are below others, copies of
# crates with all below them, in which rt works apart from the repository, and whether what was made of crates is still of
# their sources. It relies on crates.txt, where a crate's line stands after those of the crates that it needs.

# Prints the lines of the repository's crates.txt, read from standard input, of the crates that are named and of all
# below them.
lines_below() {
    awk -v names="$*" '
        BEGIN { split(names, name, " "); for (it in name) wanted[name[it]] = 1 }
        /^#/ || !/:/ { next }
        { line[++count] = $0 }
        END {
            for (at = count; at >= 1; at--) {
                split(line[at], half, ":"); split(half[1], word, " ")
                if (!(word[1] in wanted)) continue
                split(half[2], below, " ")
                for (it in below) wanted[below[it]] = 1
                print line[at]
            }
        }'
}

# copy_sources TOP FOLDER CRATE..: copies these crates and all below them to a folder, which becomes the top of a
# repository. What earlier builds made stays behind, and so do the edits by which the gate shows that wrong bodies are
# refused.
copy_sources() {
    from=$1 to=$2
    shift 2
    mkdir -p "$to/.git" "$to/crates" && cp "$from/HANDLES" "$to" && lines_below "$@" <"$from/crates.txt" >"$to/crates.txt" || return 1
    for crate in $(sed 's/[ :].*//' "$to/crates.txt"); do
        mkdir "$to/crates/$crate" || return 1
        for part in "$from/crates/$crate"/*; do
            case ${part##*/} in
            out | must-fail) ;;
            *) cp -R "$part" "$to/crates/$crate" || return 1 ;;
            esac
        done
    done
}

# is_current TOP MADE CRATE: succeeds if the program or archive MADE is there and was made of this crate and all below it as they
# stand. MADE.built beside it has their lines of crates.txt, and no source of theirs is newer than that file, whose time is
# the one at which the build began. MADE is a whole path.
is_current() {
    [ -f "$2" ] && lines_below "$3" <"$1/crates.txt" | cmp -s - "$2.built" || return 1
    # shellcheck disable=SC2046 # the folders are words
    newer=$(cd "$1" && find HANDLES $(lines_below "$3" <crates.txt | sed 's/[ :].*//; s|^|crates/|') -name out -prune -o \
        \( -name '*.rt' -o -name '*.antt' -o -name HANDLES \) -newer "$2.built" -print) || return 1
    [ -z "$newer" ]
}

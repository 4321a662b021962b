# For the scripts `camr` and `tools/build-c-library`, which read it: crates are proved as the gate proves them, and a line
# tells of each how far that is and how long the rest takes.

# Seconds as minutes and seconds.
clock() {
    printf '%d:%02d' $(($1 / 60)) $(($1 % 60))
}

# time_left TIMES: about how long the rest of the build takes, in words, or nothing if the table TIMES has no time. The table
# tells, for a build that had all to prove, after how many seconds each crate was proved; only the crates of the copy in
# "$work/sources" count. "$work/passed" has those that are done, each with the seconds and `proved` or `kept`. If none was
# kept, the times at which so many crates were done there and here tell how fast this machine is, whichever these are, since
# the first few may come in another order. Otherwise the crates that were proved here tell it by what each added to the table's
# build; a minute beside them keeps the first few from telling an absurd speed. A crate that the table does not have counts
# as the mean of the others.
time_left() {
    [ -e "$1" ] || return 0
    awk '
        /^#/ || !NF { next }
        what == "times" { table[++rows] = $1; part[$1] = $2 - before; before = $2; next }
        what == "crates" { sub(/[ :].*/, ""); if (wanted[$1]++ == 0) crate[++crates] = $1; next }
        {
            passed[$1] = $3; now = $2
            if ($3 == "kept") kept++
            else { proved++; here += $2 }
        }
        END {
            for (row = 1; row <= rows; row++) {
                name = table[row]
                if (!(name in wanted) && name != "program") continue
                order[++count] = name; whole += part[name]
            }
            if (!count) exit
            mean = whole / count
            for (at = 1; at <= crates; at++) if (!(crate[at] in part)) { order[++count] = crate[at]; part[crate[at]] = mean }
            for (at = 1; at <= count; at++) {
                name = order[at]
                reached += part[name]
                if (at <= proved) there += reached
                else after += part[name]
                if (!(name in passed)) left += part[name]
                else if (passed[name] == "proved") took += part[name]
            }
            if (!kept && there > 0) left = after * here / there
            else if (proved) left *= (now + 60) / (took + 60)
            minutes = int(left / 60 + 0.5)
            print ", " (minutes > 1 ? "about " minutes " minutes left" : minutes == 1 ? "about a minute left" : "less than a minute left")
        }' what=times "$1" what=crates "$work/sources/crates.txt" what=passed "$work/passed"
}

# show_crates NAME TIMES COUNT: reads what `rt ci` says, and shows a line for each crate once it is proved, after the script's name.
show_crates() {
    began=$(date +%s) number=0
    : >"$work/passed"
    while IFS= read -r line; do
        name=${line#rt: } name=${name%% *}
        case $line in
        'rt: '*': its tests are '*) continue ;;
        'rt: '*' proved') how=proved ;;
        'rt: '*' is kept: '*) how=kept ;;
        *) continue ;;
        esac
        number=$((number + 1)) elapsed=$(($(date +%s) - began))
        echo "$name $elapsed $how" >>"$work/passed"
        echo "$1: $number of $3 crates, $(clock $elapsed)$(time_left "$2"): $name is proved"
    done
    echo "program $(($(date +%s) - began)) ended" >>"$work/passed"
}

# has_toolchain NAME: succeeds if there is an `rt` on the path, and otherwise says what is missing, in one line after the script's name.
has_toolchain() {
    command -v rt >/dev/null && return 0
    echo "$1: nothing can be built here: the Rattle toolchain is missing, whose command \`rt\` has to be on the path (README.md, Install)"
    return 1
}

# prove_copy NAME TIMES: proves the crates of the copy in "$work/sources" as the gate does, many side by side, and builds their
# programs. What the gate proved of the same files on this machine is not proved again, and what is proved here the gate need
# not prove. All that `rt ci` says goes to "$work/log".
prove_copy() {
    (
        # what interrupts the build ends rt too, and is waited for, so that nothing is written any more where all is removed
        trap : HUP INT TERM
        cd "$work/sources" && rt ci </dev/null 2>&1
        echo $? >"$work/status"
    ) | tee "$work/log" | show_crates "$1" "$2" "$(awk '!/^#/ && /:/ { count++ } END { print count + 0 }' "$work/sources/crates.txt")"
    [ "$(cat "$work/status")" = 0 ]
}

# Completion of camr for bash: its commands, their options with the values that these take, and files. `.ci/completions` compares it
# with what `camr --help` and the help of each command say.

# _camr_options COMMAND: prints the options of a command.
_camr_options() {
    case $1 in
    run) echo '--workers --strict --watch --watch=lines --watch=terminal' ;;
    live) echo '--clock --step --ack --journal --sync --metrics' ;;
    migrate) echo '--to' ;;
    decide) echo '--retries --class --attempts --clock --word --all-sense' ;;
    try) echo '--seed --trace' ;;
    show) echo '--ccb --queue --run --freeze --from --to --status --sense --refused --summary --json --svg --perfetto' ;;
    esac
    echo '--help -h'
}

_camr() {
    local commands='asm dis check explain migrate run live replay audit show decide try help'
    local cur=${COMP_WORDS[COMP_CWORD]} prev=${COMP_WORDS[COMP_CWORD - 1]} command=${COMP_WORDS[1]} kind=-f
    # bash takes `=` for a word of its own, and offers what stands after it
    if [[ $cur == = ]]; then
        cur='' prev="$prev="
    elif [[ $prev == = ]]; then
        prev="${COMP_WORDS[COMP_CWORD - 2]}="
    fi
    COMPREPLY=()
    if ((COMP_CWORD == 1)); then
        [[ $cur == -* ]] && commands='--help -h --version -V'
        mapfile -t COMPREPLY < <(compgen -W "$commands" -- "$cur")
        return
    fi
    case $command/$prev in
    help/*)
        ((COMP_CWORD > 2)) || mapfile -t COMPREPLY < <(compgen -W "$commands" -- "$cur")
        return
        ;;
    run/--watch=)
        mapfile -t COMPREPLY < <(compgen -W 'lines terminal' -- "$cur")
        return
        ;;
    run/--workers | run/--workers=)
        mapfile -t COMPREPLY < <(compgen -W '1 2 3 4 5 6 7 8 9 10 11 12 13 14 15 16' -- "$cur")
        return
        ;;
    show/--refused | show/--refused=)
        mapfile -t COMPREPLY < <(compgen -W 'any C1 C2 C3 C5 Q2 Q3 Q4 Q5' -- "$cur")
        return
        ;;
    migrate/--to | migrate/--to=)
        mapfile -t COMPREPLY < <(compgen -W '2 3' -- "$cur")
        return
        ;;
    show/--ccb* | show/--queue* | show/--run* | show/--freeze* | show/--from* | show/--to*) return ;;
    show/--status* | show/--sense*) return ;;
    decide/--retries* | decide/--class* | decide/--attempts* | decide/--clock* | decide/--word*) return ;;
    live/--journal*) kind=-d ;;
    try/--seed*) return ;;
    live/--metrics* | show/--svg* | show/--perfetto* | try/--trace*) ;;
    audit/*) kind=-d ;;
    esac
    if [[ $cur == -* ]]; then
        mapfile -t COMPREPLY < <(compgen -W "$(_camr_options "$command")" -- "$cur")
    else
        compopt -o filenames 2>/dev/null
        mapfile -t COMPREPLY < <(compgen $kind -- "$cur")
    fi
}

complete -F _camr camr

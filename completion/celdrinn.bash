# Completion of celdrinn's words in bash. Load it by: source completion/celdrinn.bash
# It is made by packaging/words.sh.
_celdrinn() {
    local word=${COMP_WORDS[COMP_CWORD]} command=${COMP_WORDS[1]-} kinds='' options='' place=0 k
    COMPREPLY=()
    if [ "$COMP_CWORD" -eq 1 ]; then
        mapfile -t COMPREPLY < <(compgen -W "simplify check rebuild annotate refute extract disprove miter validate certify solve gen demo apply mend help --help --version" -- "$word")
        return
    fi
    case $command in
        help)
            [ "$COMP_CWORD" -eq 2 ] && mapfile -t COMPREPLY < <(compgen -W "simplify check rebuild annotate refute extract disprove miter validate certify solve gen demo apply mend causes" -- "$word")
            return
            ;;
        simplify) kinds=fff options="--budget= --grow= --expand= --time= --plain --best --stats --force --quiet --verbose" ;;
        check) kinds=fff options="--part= --stats --quiet --verbose" ;;
        rebuild) kinds=fffff options="--stats --force --quiet --verbose" ;;
        annotate) kinds=ffff options="--part= --stats --force --binary --quiet --verbose" ;;
        refute) kinds=fffff options="--stats --force --quiet --verbose" ;;
        extract) kinds=fff options="--stats --force --quiet --verbose" ;;
        disprove) kinds=fff options="--binary --part= --stats --force --quiet --verbose" ;;
        miter) kinds=fff options="--herbrand --stats --force --quiet --verbose" ;;
        validate) kinds=ff options="--budget= --with= --herbrand --seconds= --stats --quiet --verbose" ;;
        certify) kinds=ff options="--seconds= --check --force --quiet --verbose" ;;
        solve) kinds=ffff options="--budget= --grow= --expand= --seconds= --stats --force --quiet --verbose" ;;
        gen) kinds=nnf options="--force --quiet --verbose" ;;
        demo) kinds=nnfff options="--force --quiet --verbose" ;;
        apply) kinds=fff options="--stats --force --quiet --verbose" ;;
        mend) kinds=ff options="--force --quiet --verbose" ;;
        *) return ;;
    esac
    if [[ $word == -* ]]; then
        compopt -o nospace
        mapfile -t COMPREPLY < <(compgen -W "$options" -- "$word")
        return
    fi
    # options may stand anywhere, so names are counted; bash takes the sign and the number behind an option for words of their own
    for ((k = 2; k < COMP_CWORD; k++)); do
        [[ ${COMP_WORDS[k]} == -* || ${COMP_WORDS[k]} == = || ${COMP_WORDS[k - 1]} == = ]] || place=$((place + 1))
    done
    if [[ $word != = && ${COMP_WORDS[COMP_CWORD - 1]} != = && ${kinds:place:1} == f ]]; then
        compopt -o filenames
        mapfile -t COMPREPLY < <(compgen -f -- "$word")
    fi
}
complete -F _celdrinn celdrinn ./celdrinn

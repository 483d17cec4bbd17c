# Completions of tmchan for bash. tests/manual compares them with the program.

_tmchan() {
    local word=${COMP_WORDS[COMP_CWORD]} before=${COMP_WORDS[COMP_CWORD - 1]} words=() option given
    # "--depth=5" is three words here.
    if [ "$word" = = ]; then
        word=
    elif [ "$before" = = ]; then
        before=${COMP_WORDS[COMP_CWORD - 2]}
    fi
    COMPREPLY=()
    case $before in
    *'<' | *'>')
        # What is read or written is a file.
        compopt -o filenames 2>/dev/null
        mapfile -t COMPREPLY < <(compgen -f -- "$word")
        return
        ;;
    esac
    if [ "$COMP_CWORD" -eq 1 ]; then
        words=(encode decode report trace bits erased certify check word soak)
    else
        case $before in
        --code) words=(rs16 rs8 none) ;;
        --depth) words=(1 2 3 4 5 8) ;;
        --inner) words=(none 1/2 2/3 3/4 5/6 7/8) ;;
        --invert | --randomize | --pack | --rescan) words=(on off) ;;
        --bad) words=(drop pass) ;;
        --basis) words=(dual poly) ;;
        --soft) words=(u8 i8) ;;
        --start) words=(zero any) ;;
        --phase) words=(given find follow) ;;
        --polarity) words=(given find) ;;
        --*) ;;
        *)
            words=(--code --depth --length --inner --invert --randomize --basis --tolerance --repair --soft --start --skip --workers
                --limit --fly --keep --ahead --phase --polarity --batch --pack --verify --rescan --bad)
            if [ "${COMP_WORDS[1]}" = soak ]; then
                words+=(--seed --frames --hits)
            fi
            # Each may stand once.
            for given in "${COMP_WORDS[@]:2}"; do
                for option in "${!words[@]}"; do
                    if [ "${words[option]}" = "$given" ] && [ "$given" != "$word" ]; then
                        unset "words[option]"
                    fi
                done
            done
            ;;
        esac
    fi
    COMPREPLY=($(compgen -W "${words[*]}" -- "$word"))
}

complete -F _tmchan tmchan

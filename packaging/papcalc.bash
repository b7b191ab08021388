# Completion of papcalc, pap_author and papledger for bash.

# The files behind a word, those of a kind first.
_papcalc_files() {
    local IFS=$'\n'
    compopt -o filenames 2> /dev/null
    COMPREPLY=($(compgen -f -X "!*.$1" -- "$2") $(compgen -d -- "$2"))
    [ "${#COMPREPLY[@]}" -gt 0 ] || COMPREPLY=($(compgen -f -- "$2"))
}

# The names of a flowchart's inputs, each with `=`.
_papcalc_inputs() {
    local names
    names=$(grep -o '<INPUT [^>]*name="[A-Za-z0-9_]*"' -- "$1" 2> /dev/null | sed 's/.*name="\([^"]*\)".*/\1=/')
    compopt -o nospace 2> /dev/null
    COMPREPLY=($(compgen -W "$names" -- "$2"))
}

_papcalc() {
    local word=${COMP_WORDS[COMP_CWORD]} command=${COMP_WORDS[1]}
    COMPREPLY=()
    if [ "$COMP_CWORD" -eq 1 ]; then
        COMPREPLY=($(compgen -W 'check once run save sample --help --version' -- "$word"))
        return
    fi
    case $command:$COMP_CWORD in
        check:2 | once:2) _papcalc_files xml "$word" ;;
        check:3 | once:3) _papcalc_files toml "$word" ;;
        once:*) _papcalc_inputs "${COMP_WORDS[2]}" "$word" ;;
    esac
}

_pap_author() {
    local word=${COMP_WORDS[COMP_CWORD]} command=${COMP_WORDS[1]}
    COMPREPLY=()
    if [ "$COMP_CWORD" -eq 1 ]; then
        COMPREPLY=($(compgen -W 'chart ranges trace example lint compare cover text --help --version' -- "$word"))
        return
    fi
    case $command:$COMP_CWORD in
        chart:2 | ranges:2 | trace:2 | example:2 | lint:2 | cover:2) _papcalc_files xml "$word" ;;
        chart:3 | trace:3 | example:3 | lint:3 | cover:3) _papcalc_files toml "$word" ;;
        cover:4) _papcalc_files csv "$word" ;;
        cover:5) COMPREPLY=($(compgen -W '--at-least' -- "$word")) ;;
        trace:*) _papcalc_inputs "${COMP_WORDS[2]}" "$word" ;;
        compare:2 | compare:4) _papcalc_files xml "$word" ;;
        compare:3) _papcalc_files '[tx]*ml' "$word" ;;
        compare:5) _papcalc_files toml "$word" ;;
        text:2) COMPREPLY=($(compgen -W 'compare trace cover' -- "$word")) ;;
        text:3) _papcalc_files xml "$word" ;;
        text:4)
            case ${COMP_WORDS[2]} in
                compare) _papcalc_files '[tx]*ml' "$word" ;;
                trace | cover) _papcalc_files toml "$word" ;;
            esac ;;
        text:*)
            case ${COMP_WORDS[2]}:$COMP_CWORD in
                trace:*) _papcalc_inputs "${COMP_WORDS[3]}" "$word" ;;
                compare:5) _papcalc_files xml "$word" ;;
                compare:6) _papcalc_files toml "$word" ;;
                cover:5) _papcalc_files csv "$word" ;;
                cover:6) COMPREPLY=($(compgen -W '--at-least' -- "$word")) ;;
            esac ;;
    esac
}

complete -F _papcalc papcalc
complete -F _pap_author pap_author

# Completions of htext for bash.

# Prints the values of an option, one on each line. Returns 1 for an option without a value.
_htext_values() {
    case $1 in
    -s | --style) printf '%s\n' plain rich bare ;;
    --format) printf '%s\n' text json ;;
    --color) printf '%s\n' always never auto ;;
    --links) printf '%s\n' notes inline list none ;;
    --tables) printf '%s\n' data all none ;;
    --images) printf '%s\n' none name always ;;
    --charset) printf '%s\n' utf-8 iso-8859-1 iso-8859-2 iso-8859-15 windows-1251 windows-1252 koi8-r big5 gbk euc-jp shift_jis iso-2022-jp euc-kr ;;
    -w | --width | -j | --jobs | --max-width | --max-nodes | --base | --css) ;;
    *) return 1 ;;
    esac
}

_htext() {
    local current=${COMP_WORDS[COMP_CWORD]} option=${COMP_WORDS[COMP_CWORD - 1]} values at
    COMPREPLY=()
    for ((at = 1; at < COMP_CWORD; at++)); do
        [ "${COMP_WORDS[at]}" = -- ] && return
    done
    # bash parts --option=value into three words
    if [ "$current" = = ]; then
        current=
    elif [ "$option" = = ]; then
        option=${COMP_WORDS[COMP_CWORD - 2]}
    fi
    if values=$(_htext_values "$option"); then
        COMPREPLY=($(compgen -W "$values" -- "$current"))
        # nothing in the place of the name of a file
        [ -n "$values" ] || compopt +o default 2>/dev/null
    elif [[ "$option" = --output-dir ]]; then
        COMPREPLY=($(compgen -d -- "$current"))
    elif [[ "$option" != -o && "$option" != --output && "$current" = -* ]]; then
        COMPREPLY=($(compgen -W "-w --width -s --style --format --color -o --output --output-dir -j --jobs -0 --null --title
            --charset --links --no-links --wrap-links --no-wrap-links --base --tables --row-rules --raw-tables --cut-words
            --no-borders --fence-tables --wrap-code --max-width --pad --images --narrow --css --page-css --keep-controls --max-nodes
            -h --help -V --version" -- "$current"))
    fi
}

complete -o default -F _htext htext

# What bash completes of the words of `legumeyet`. Made by tools/man_page.
_legumeyet_reply() {
    mapfile -t COMPREPLY < <(compgen "$@" -- "$word")
}

_legumeyet() {
    local word=${COMP_WORDS[COMP_CWORD]} before=${COMP_WORDS[COMP_CWORD - 1]}
    # bash takes the equals sign of --form=short for a word of its own
    if [[ $word == "=" ]]; then
        word=
    elif [[ $before == "=" ]]; then
        before=${COMP_WORDS[COMP_CWORD - 2]}
    fi
    COMPREPLY=()
    case $before in
        -t | --tag) _legumeyet_reply -W "$(legumeyet --locales 2>/dev/null)" ;;
        -f | --form) _legumeyet_reply -W "plain short long exact-short exact-long read read-lenient" ;;
        -g | --grouping) _legumeyet_reply -W "auto always min2 on-aligned never" ;;
        -s | --sign) _legumeyet_reply -W "keep auto always never except-zero negative" ;;
        --priority) _legumeyet_reply -W "more less" ;;
        --invalid) _legumeyet_reply -W "empty keep skip abort" ;;
        -b | --book) _legumeyet_reply -f ;;
        --format | -r | --round | -d | --digits | --max-digits | --min-digits | --significant | -c | --currency | --read | --read-exact | --field | --delimiter | --padding | --capacity) ;;
        *) [[ $word != -* ]] || _legumeyet_reply -W "--tag --form --format --scientific --engineering --grouping --sign --round --digits --max-digits --min-digits --significant --priority --currency --accounting --code --cash --percent --permille --plural --ordinal --read --read-exact --field --read-fields --delimiter --header --padding --parts --invalid --book --locales --lines --capacity --help --version" ;;
    esac
}
complete -o filenames -F _legumeyet legumeyet

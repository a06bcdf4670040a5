# Completion of corfynnog's commands, options and files, for bash.

_corfynnog_commands="compare judge compile evaluate check show make convert marked help"

# The options of a command, or of the program where no command is named.
_corfynnog_options() {
    case "$1" in
        compare) echo "--bound --out --all --timeout --json --help" ;;
        judge) echo "--all --json --help" ;;
        make | convert) echo "--out --json --help" ;;
        compile | evaluate | check | show | marked) echo "--json --help" ;;
        "") echo "--json --help --version" ;;
    esac
}

# The command among the words before the one that is being typed: the first that is no option.
_corfynnog_command() {
    local i
    for ((i = 1; i < COMP_CWORD; i++)); do
        case "${COMP_WORDS[i]}" in
            -*) ;;
            =) i=$((i + 1)) ;;
            *)
                echo "${COMP_WORDS[i]}"
                return
                ;;
        esac
    done
}

# Offers those of these words that start as the one that is being typed, and no files.
_corfynnog_offer() {
    compopt +o default 2>/dev/null
    mapfile -t COMPREPLY < <(compgen -W "$1" -- "$2")
}

_corfynnog() {
    local word=${COMP_WORDS[COMP_CWORD]} before=${COMP_WORDS[COMP_CWORD - 1]} command
    command=$(_corfynnog_command)
    COMPREPLY=()
    # bash takes '--bound=3' apart into three words.
    if [ "$word" = "=" ]; then
        word=""
    elif [ "$before" = "=" ]; then
        before=${COMP_WORDS[COMP_CWORD - 2]}
    fi
    case "$before,$command,$word" in
        --bound,*) _corfynnog_offer "0 1 2 3 4 5 6 7 8" "$word" ;;
        --timeout,* | *,marked,) _corfynnog_offer "" "$word" ;;
        --out,*) ;;
        *,*,-*) _corfynnog_offer "$(_corfynnog_options "$command")" "$word" ;;
        *,,* | *,help,*) _corfynnog_offer "$_corfynnog_commands" "$word" ;;
    esac
}

# Files are offered where nothing else is.
complete -o default -F _corfynnog corfynnog

# Completions of bitm(1) for bash: the words of a command, kinds after `build`, and files where a BLOCK stands.
_bitm() {
    local word=${COMP_WORDS[COMP_CWORD]} before="${COMP_WORDS[*]:1:COMP_CWORD-1}" offered=
    case $before in
        "") offered="build query check info text strings help --help --version" ;;
        help) offered="build query check info text strings" ;;
        build) offered="bits sparse sequence matrix tree" ;;
        text) offered="build count locate lines --help" ;;
        strings) offered="build find --help" ;;
        "text count" | "text locate" | "text lines") offered="-f --json --no-check" ;;
        query | check | info | "strings find" | "query "* | "check "* | "info "* | "strings find "* | \
            "text count "* | "text locate "* | "text lines "*)
            if [[ $word == -* ]]; then
                offered="--json"
            else
                mapfile -t COMPREPLY < <(compgen -f -- "$word")
                compopt -o filenames 2> /dev/null || :
                return
            fi
            ;;
    esac
    mapfile -t COMPREPLY < <(compgen -W "$offered" -- "$word")
}
complete -F _bitm bitm

# Completion of the words of cmk for bash.
_cmk() {
    local word=${COMP_WORDS[COMP_CWORD]} last=${COMP_WORDS[COMP_CWORD - 1]} words=''
    case $last in
        --bytes | --blocks | --inlines) return ;;
    esac
    if [ "$COMP_CWORD" -eq 1 ]; then
        words='render tree rewrite examples help --help --version -h -V'
    else
        case ${COMP_WORDS[1]} in
            tree) words='--json --bytes --blocks --inlines --older --strike --no-html --web-links --safe --help -h' ;;
            render | rewrite) words='--bytes --blocks --inlines --older --strike --no-html --web-links --safe --help -h' ;;
            examples) words='--older --strike --no-html --web-links --safe --help -h' ;;
            help) words='render tree rewrite examples help' ;;
        esac
    fi
    case $word in
        -*) ;;
        *)
            if [ "$COMP_CWORD" -gt 1 ] && [ "${COMP_WORDS[1]}" != help ]; then
                compopt -o filenames 2>/dev/null
                mapfile -t COMPREPLY < <(compgen -f -- "$word")
                return
            fi
            ;;
    esac
    mapfile -t COMPREPLY < <(compgen -W "$words" -- "$word")
}
complete -F _cmk cmk

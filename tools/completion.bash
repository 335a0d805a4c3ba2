# Completion of the words of wfprov for bash. tools/install.sh puts it under a prefix, with the lines of tools/forms in the place of the line below that says so.
# A new command is one line of tools/forms.

_wfprov_forms="\
@FORMS@
"

# Offers a command, and then for each word what its form says: names of files, or nothing where a label or a number stands.
_wfprov() {
    local word=${COMP_WORDS[COMP_CWORD]} commands="" wanted="" form
    # A form has no word for the program itself.
    local place=$((COMP_CWORD - 1))
    local -a words
    COMPREPLY=()
    while IFS= read -r form; do
        read -ra words <<<"$form"
        [ "${#words[@]}" -gt 0 ] || continue
        commands+=" ${words[0]}"
        if [ "${words[0]}" = "${COMP_WORDS[1]}" ] && [ "$place" -lt "${#words[@]}" ]; then
            wanted+=" ${words[place]}"
        fi
    done <<<"$_wfprov_forms"
    if [ "$COMP_CWORD" -eq 1 ]; then
        mapfile -t COMPREPLY < <(compgen -W "$commands" -- "$word" | sort -u)
        return
    fi
    case "$wanted " in
        *' SPEC '* | *' VIEW '* | *' COARSE '* | *' EVENTS '* | *' LABELS '* | *' QUERIES '* | *' CHAIN '* | *' PACKAGE '* | *' AUTO '*)
            compopt -o filenames 2>/dev/null
            mapfile -t COMPREPLY < <(compgen -f -- "$word")
            ;;
    esac
}

complete -F _wfprov wfprov

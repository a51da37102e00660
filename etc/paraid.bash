# Completion of the words of paraid for bash.
_paraid() {
    local word=${COMP_WORDS[COMP_CWORD]} before=${COMP_WORDS[COMP_CWORD - 1]} options='' at
    if [ "$COMP_CWORD" -eq 1 ]; then
        options='format run status check gen nbd vol plan'
    else
        case ${COMP_WORDS[1]} in
        format) options=' --force ' ;;
        run) options=' --spares --wait ' ;;
        gen) options=' --number --lines ' ;;
        plan) options=' --ups ' ;;
        esac
        # What is given already is not given again; and after all but --force comes a number.
        for ((at = 2; at < COMP_CWORD; at++)); do
            options=${options/ ${COMP_WORDS[at]} / }
        done
        case $before in
        --spares | --wait | --number | --lines | --ups | = | *[\<\>]*) options='' ;;
        esac
    fi
    # (a word of options has no blank in it)
    # shellcheck disable=SC2207
    COMPREPLY=($(compgen -W "$options" -- "$word"))
}
# (by default the name of a file, as behind a `<`)
complete -o bashdefault -o default -F _paraid paraid

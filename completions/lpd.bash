# Completion of lpd's command lines in bash, which begins with: source completions/lpd.bash
#
# tests/check_commands.py checks that these are the commands and the options that the program takes.

# The commands: the plain words of each, as placeholders, and then its options.
declare -A _lpd_commands=(
    [run]="--workers --places"
    [solve]="--form --wide"
    [check]="--form --wide"
    [basis]="--form --wide"
    [presolve]="--form"
    [iis]="--form"
    [range]="WHAT NAME --form"
    [gen]="SEED ROWS COLS"
    [serve]="ADDRESS --workers --each --places"
)

# What may stand in place of all plain words.
declare -A _lpd_alone=(
    [range]="all"
)

# What may stand in place of a command.
_lpd_notices="--help --version"

# The options that are switches: they have no value.
_lpd_switches="--wide"

# The values of those options that take few.
declare -A _lpd_values=(
    [--form]="free fixed"
)

_lpd() {
    local word=${COMP_WORDS[COMP_CWORD]} choices="" place=2 each due=""
    if ((COMP_CWORD == 1)); then
        choices="${!_lpd_commands[*]} $_lpd_notices"
    else
        for each in ${_lpd_commands[${COMP_WORDS[1]:--}]-}; do
            if [[ $each != --* ]]; then
                ((place += 1))
            elif [[ " ${COMP_WORDS[*]:2:COMP_CWORD-2} " != *" $each "* ]]; then
                choices+=" $each"
            fi
        done
        if ((COMP_CWORD > 2)) && [[ ${COMP_WORDS[2]} == "${_lpd_alone[${COMP_WORDS[1]:--}]-}" ]]; then
            place=3
        fi
        if ((COMP_CWORD < place)); then
            choices=""
        else
            # The option whose value is due, if one is.
            for each in "${COMP_WORDS[@]:place:COMP_CWORD-place}"; do
                if [[ $due || " $_lpd_switches " == *" $each "* ]]; then
                    due=""
                else
                    due=$each
                fi
            done
            if [[ $due ]]; then
                choices=${_lpd_values[$due]-}
            fi
        fi
    fi
    mapfile -t COMPREPLY < <(compgen -W "$choices" -- "$word")
}

complete -F _lpd lpd

# Completions of bash for escrow. The tables are made by tests/made.py from the words of its commands.
# Source this file, or copy it to /usr/share/bash-completion/completions/escrow
declare -gA _escrow_options=(
    [init]='--blocks=N --number=HEX16'
    [register]='--first=DATE'
    [put]='--now=MOMENT'
    [preview]='--date=DATE --kind=KIND --revision=N --parts=N --id=ID --now=MOMENT'
    [verify]='--date=DATE --kind=KIND --revision=N --parts=N --id=ID --now=MOMENT'
    [due]='--now=MOMENT'
    [sweep]='--at-most=N --now=MOMENT'
    [purge]='--now=MOMENT'
    [hold]='--date=DATE --now=MOMENT'
    [lift]='--now=MOMENT'
    [release]='--now=MOMENT'
    [fetch]=''
    [report]=''
    [explain]='--date=DATE --revision=N'
    [digests]=''
    [state]=''
    [audit]=''
    [batch]=''
    [serve]='--port=N --requests=N --until-closed --now=MOMENT'
)
declare -gA _escrow_places=(
    [init]='DIR'
    [register]='DIR TLD'
    [put]='DIR FILE'
    [preview]='DIR TLD'
    [verify]='DIR TLD'
    [due]='DIR'
    [sweep]='DIR'
    [purge]='DIR'
    [hold]='DIR REF TLD'
    [lift]='DIR REF'
    [release]='DIR REF TLD GROUND'
    [fetch]='DIR REF NAME'
    [report]='DIR TLD'
    [explain]='DIR TLD'
    [digests]='DIR TLD'
    [state]='DIR'
    [audit]='DIR'
    [batch]='DIR'
    [serve]='DIR'
)
declare -gA _escrow_values=(
    [preview KIND]='full diff incr'
    [verify KIND]='full diff incr'
    [release GROUND]='operator termination no_notices sunday_failed five_failed insolvency critical order audit'
)

# What is offered for the word at the cursor: what compgen finds.
_escrow_offer() { mapfile -t COMPREPLY < <(compgen "$@" -- "${COMP_WORDS[COMP_CWORD]}"); }

# The name of the value of an option of a command; nothing of a flag.
_escrow_value() {
    local rest=" ${_escrow_options[$1]} "
    if [[ $rest == *" $2="* ]]; then
        rest=${rest#*" $2="}
        echo "${rest%% *}"
    fi
}

# What is wanted at the cursor: the value of the option before it, else the next place of the command.
_escrow_wanted() {
    local places=() place=0 value="" at
    read -ra places <<< "${_escrow_places[$1]}"
    for ((at = 2; at < COMP_CWORD; at++)); do
        if [[ ${COMP_WORDS[at]} == -* ]]; then value=$(_escrow_value "$1" "${COMP_WORDS[at]}")
        elif [[ ! $value ]]; then [[ ${places[place]} == *... ]] || ((place++))
        elif [[ $value != *... ]]; then value=""; fi
    done
    echo "${value:-${places[place]}}"
}

_escrow() {
    local command=${COMP_WORDS[1]} wanted options=()
    COMPREPLY=()
    if ((COMP_CWORD == 1)); then
        _escrow_offer -W "${!_escrow_places[*]} help --help --version"
    elif [[ $command == help ]]; then
        ((COMP_CWORD == 2)) && _escrow_offer -W "${!_escrow_places[*]}"
    else
        read -ra options <<< "${_escrow_options[$command]}"
        wanted=$(_escrow_wanted "$command")
        [[ ${COMP_WORDS[COMP_CWORD]} == -* ]] && wanted=""
        case ${wanted%...} in
            DIR | FOLDER | TABLES) _escrow_offer -d ;;
            FILE) _escrow_offer -f -X '!*.ryde' -o plusdirs ;;
            "") _escrow_offer -W "${options[*]%%=*} --help" ;;
            *) _escrow_offer -W "${_escrow_values[$command ${wanted%...}]}" ;;
        esac
    fi
}
complete -o filenames -F _escrow escrow

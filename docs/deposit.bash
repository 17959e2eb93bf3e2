# Completions of bash for deposit. The tables are made by tests/made.py from the words of its commands.
# Source this file, or copy it to /usr/share/bash-completion/completions/deposit
declare -gA _deposit_options=(
    [pack]='--tld=TLD --date=DATE --kind=KIND --revision=N --id=ID --whole --previous=ID --after=FILE... --header --all --out=FOLDER'
    [check]='--after=FILE...'
    [unpack]='--out=FOLDER'
    [restore]='--header --out=FOLDER'
)
declare -gA _deposit_places=(
    [pack]='TABLES'
    [check]='FILE...'
    [unpack]='FILE...'
    [restore]='FILE...'
)
declare -gA _deposit_values=(
    [pack KIND]='full diff incr'
)

# What is offered for the word at the cursor: what compgen finds.
_deposit_offer() { mapfile -t COMPREPLY < <(compgen "$@" -- "${COMP_WORDS[COMP_CWORD]}"); }

# The name of the value of an option of a command; nothing of a flag.
_deposit_value() {
    local rest=" ${_deposit_options[$1]} "
    if [[ $rest == *" $2="* ]]; then
        rest=${rest#*" $2="}
        echo "${rest%% *}"
    fi
}

# What is wanted at the cursor: the value of the option before it, else the next place of the command.
_deposit_wanted() {
    local places=() place=0 value="" at
    read -ra places <<< "${_deposit_places[$1]}"
    for ((at = 2; at < COMP_CWORD; at++)); do
        if [[ ${COMP_WORDS[at]} == -* ]]; then value=$(_deposit_value "$1" "${COMP_WORDS[at]}")
        elif [[ ! $value ]]; then [[ ${places[place]} == *... ]] || ((place++))
        elif [[ $value != *... ]]; then value=""; fi
    done
    echo "${value:-${places[place]}}"
}

_deposit() {
    local command=${COMP_WORDS[1]} wanted options=()
    COMPREPLY=()
    if ((COMP_CWORD == 1)); then
        _deposit_offer -W "${!_deposit_places[*]} help --help --version"
    elif [[ $command == help ]]; then
        ((COMP_CWORD == 2)) && _deposit_offer -W "${!_deposit_places[*]}"
    else
        read -ra options <<< "${_deposit_options[$command]}"
        wanted=$(_deposit_wanted "$command")
        [[ ${COMP_WORDS[COMP_CWORD]} == -* ]] && wanted=""
        case ${wanted%...} in
            DIR | FOLDER | TABLES) _deposit_offer -d ;;
            FILE) _deposit_offer -f -X '!*.ryde' -o plusdirs ;;
            "") _deposit_offer -W "${options[*]%%=*} --help" ;;
            *) _deposit_offer -W "${_deposit_values[$command ${wanted%...}]}" ;;
        esac
    fi
}
complete -o filenames -F _deposit deposit

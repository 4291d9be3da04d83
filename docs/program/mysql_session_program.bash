# Completion of mysql_session_program for bash; zsh has it behind `autoload -U bashcompinit && bashcompinit`.
# Source it, or install it as mysql_session_program in a folder such as ~/.local/share/bash-completion/completions.

_mysql_session_program() {
    local word=${COMP_WORDS[COMP_CWORD]} before=${COMP_WORDS[COMP_CWORD - 1]} command=${COMP_WORDS[1]}
    local commands="encode audit follow recode connection help"
    local modes="no-backslash-escapes ansi-quotes no-backslash-escapes,ansi-quotes"
    local roads="text execute bulk" offered=""

    if ((COMP_CWORD == 1)); then
        offered=$commands
    elif [[ $before == --mode ]]; then
        offered=$modes
    elif [[ $command == encode && $before == --hex ]]; then
        offered=$roads
    elif [[ $command == encode ]] && ((COMP_CWORD == 2)); then
        offered="--mode --hex $roads"
    elif [[ $command == encode && ${COMP_WORDS[COMP_CWORD - 2]} == --mode ]]; then
        offered="--hex $roads"
    elif [[ $command =~ ^(audit|follow|recode)$ ]] && ((COMP_CWORD == 2)); then
        offered="--mode"
    elif [[ $command == connection ]] && ((COMP_CWORD == 2)); then
        offered="--secrets --text --hex"
    elif [[ $command == connection && $before == --secrets ]]; then
        offered="--text --hex"
    fi
    COMPREPLY=($(compgen -W "$offered" -- "$word"))
}

complete -F _mysql_session_program mysql_session_program

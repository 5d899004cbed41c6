# Completions of jschema-upgrade for bash.

# interface: upgrade words
_jschema_upgrade_options='--default-dialect --numbers --into'
_jschema_upgrade_dialects='draft-03 draft-04 draft-06 draft-07 2019-09 2020-12'
_jschema_upgrade_ranges='exact whole'
# interface: end

_jschema_upgrade() {
    local current=${COMP_WORDS[COMP_CWORD]} before=${COMP_WORDS[COMP_CWORD - 1]}
    COMPREPLY=()
    case $before:$current in
        --default-dialect:*) mapfile -t COMPREPLY < <(compgen -W "$_jschema_upgrade_dialects" -- "$current") ;;
        --numbers:*) mapfile -t COMPREPLY < <(compgen -W "$_jschema_upgrade_ranges" -- "$current") ;;
        --into:*) compopt -o dirnames ;;
        *:-*) mapfile -t COMPREPLY < <(compgen -W "$_jschema_upgrade_options" -- "$current") ;;
        *) compopt -o default ;; # a file
    esac
}
complete -F _jschema_upgrade jschema-upgrade

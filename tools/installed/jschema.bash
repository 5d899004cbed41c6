# Completions of jschema for bash.

# interface: words
_jschema_commands='check suite places'
_jschema_formats='flag basic detailed merged verbose'
# interface: end

# Puts the words up to the cursor into `words`. Bash also splits at `:`, `=` and `@`, which are part of URIs: here only
# blanks separate words.
_jschema_set_words() {
    local line=$COMP_LINE rest token
    words=()
    for token in "${COMP_WORDS[@]:0:COMP_CWORD+1}"; do
        rest=${line#"${line%%[![:blank:]]*}"}
        if [ "$rest" = "$line" ] && [ ${#words[@]} -gt 0 ]; then
            words[-1]+=$token
        else
            words+=("$token")
        fi
        line=${rest#"$token"}
    done
}

# Offers the document of ENTRY.
_jschema_uri() {
    local uri=${1%%#*} current=$2 last=${COMP_WORDS[COMP_CWORD]}
    [[ $uri != *[\'\"\\]* && $uri == "$current"* ]] || return
    # Readline replaces only what comes after the last character that splits words.
    [[ $last == *[!:=@]* ]] || last=''
    COMPREPLY=("${uri#"${current%"$last"}"}")
}

_jschema() {
    local words current
    COMPREPLY=()
    _jschema_set_words
    current=${words[-1]}
    case $((${#words[@]} - 1)):${words[1]-} in
        1:*) mapfile -t COMPREPLY < <(compgen -W "$_jschema_commands" -- "$current") ;;
        2:check) mapfile -t COMPREPLY < <(compgen -W "$_jschema_formats" -- "$current") ;;
        4:check) ;; # ENTRY, any URI
        3:check | *[02468]:check | *[02468]:suite | *[13579]:places) compopt -o default ;; # a file
        *:check) _jschema_uri "${words[4]}" "$current" ;;
    esac
}
complete -F _jschema jschema

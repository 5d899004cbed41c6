#compdef jschema-upgrade
# Completions of jschema-upgrade for zsh.

# interface: upgrade words
local -a options=(
    '--default-dialect:the dialect of documents that name none'
    '--numbers:the numbers that documents may have'
    '--into:the folder of the results'
)
local -a dialects=(draft-03 draft-04 draft-06 draft-07 2019-09 2020-12)
local -a ranges=(exact whole)
# interface: end

case $words[CURRENT-1]:$PREFIX in
    --default-dialect:*) compadd -- $dialects ;;
    --numbers:*) compadd -- $ranges ;;
    --into:*) _files -/ ;;
    *:-*) _describe option options ;;
    *) _files ;;
esac

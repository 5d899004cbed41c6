#compdef jschema
# Completions of jschema for zsh.

# interface: words
local -a commands=(
    'check:validate an instance'
    'suite:run a suite of tests'
    'places:list the schemas of documents'
)
local -a formats=(
    'flag:the verdict alone'
    'basic:a flat list'
    'detailed:a condensed tree'
    'merged:a condensed tree without repeated siblings'
    'verbose:the whole tree'
)
# interface: end

case $((CURRENT - 1)):$words[2] in
    1:*) _describe command commands ;;
    2:check) _describe format formats ;;
    4:check) _message 'URI of the schema' ;;
    3:check | *[02468]:check | *[02468]:suite | *[13579]:places) _files ;;
    *:check) compadd -- ${${(Q)words[5]}%%\#*} ;;
    *:suite | *:places) _message 'URI of a document' ;;
esac

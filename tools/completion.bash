# Completion of hemvuda for bash: tools, their options, and else files.
_hemvuda() {
    local word=${COMP_WORDS[COMP_CWORD]} words=''
    COMPREPLY=()
    if [ "$COMP_CWORD" -eq 1 ]; then
        words='normal check same why help version'
        case $word in
        -*) words='--help --version' ;;
        esac
    else
        case ${COMP_WORDS[1]}$word in
        normal-*) words='-o -w --help' ;;
        check-*) words='-d --help' ;;
        same-*) words='-q --help' ;;
        why-* | version-*) words='--help' ;;
        help*) words="normal check same why help version $(seq 25)" ;;
        esac
    fi
    mapfile -t COMPREPLY < <(compgen -W "$words" -- "$word")
}
# (where nothing fits, files do)
complete -o default -F _hemvuda hemvuda

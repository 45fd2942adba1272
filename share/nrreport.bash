# Completes the words of nrreport in bash: its options, and names of files.
_nrreport() {
    local word=$2
    case $word in
        -*) mapfile -t COMPREPLY < <(compgen -W '--html --help --version' -- "$word") ;;
        *) mapfile -t COMPREPLY < <(compgen -f -- "$word") ;;
    esac
}
complete -o filenames -F _nrreport nrreport

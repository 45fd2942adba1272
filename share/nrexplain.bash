# Completes the words of nrexplain in bash: its options, and names of files.
_nrexplain() {
    local word=$2
    case $word in
        -*) mapfile -t COMPREPLY < <(compgen -W '--public --help --version' -- "$word") ;;
        *) mapfile -t COMPREPLY < <(compgen -f -- "$word") ;;
    esac
}
complete -o filenames -F _nrexplain nrexplain

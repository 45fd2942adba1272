# Completes the words of nrcheck in bash: its options, and names of files.
_nrcheck() {
    local word=$2
    case $word in
        -*) mapfile -t COMPREPLY < <(compgen -W '--all --help --quiet --version' -- "$word") ;;
        *) mapfile -t COMPREPLY < <(compgen -f -- "$word") ;;
    esac
}
complete -o filenames -F _nrcheck nrcheck

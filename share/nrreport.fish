# Completes the words of nrreport in fish: its options, and names of files.
complete -c nrreport -l html -d 'Write a page of HTML'
complete -c nrreport -s h -l help -d 'Print help'
complete -c nrreport -s V -l version -d 'Print version'

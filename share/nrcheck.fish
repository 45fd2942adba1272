# Completes the words of nrcheck in fish: its options, and names of files.
complete -c nrcheck -l all -d 'With a match: write every finding, and how many they are'
complete -c nrcheck -s h -l help -d 'Print help'
complete -c nrcheck -s V -l version -d 'Print version'
complete -c nrcheck -l quiet -d 'Without a match: leave out the faults in words'

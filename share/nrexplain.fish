# Completes the words of nrexplain in fish: its options, and names of files.
complete -c nrexplain -l public -d 'Leave out ranks, quotas, and how many are ahead'
complete -c nrexplain -s h -l help -d 'Print help'
complete -c nrexplain -s V -l version -d 'Print version'

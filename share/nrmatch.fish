# Completes the words of nrmatch in fish: its options, a few of their values, and names of files.
complete -c nrmatch -l workers -x -a '1 2 4 8 16 32 64' -d 'Worker threads, 1 to 64'
complete -c nrmatch -l budget -x -a '1000000 10000000 100000000' -d 'Most rounds for the couples'
complete -c nrmatch -l orders -x -a '1 10 100 1000' -d 'Most orders of the couples to try'
complete -c nrmatch -l set-aside -d 'Set couples aside if no order ends'
complete -c nrmatch -s h -l help -d 'Print help'
complete -c nrmatch -s V -l version -d 'Print version'

#compdef nrmatch
# Completes the words of nrmatch in zsh: its options, a few of their values, and names of files.
_arguments \
    '--workers[worker threads, 1 to 64]:threads:(1 2 4 8 16 32 64)' \
    '--budget[most rounds for the couples]:rounds:(1000000 10000000 100000000)' \
    '--orders[most orders of the couples to try]:orders:(1 10 100 1000)' \
    '--set-aside[set couples aside if no order ends]' \
    '(- :)'{-h,--help}'[print help]' \
    '(- :)'{-V,--version}'[print version]' \
    '1:file of the market:_files'

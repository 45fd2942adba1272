#compdef nrcheck
# Completes the words of nrcheck in zsh: its options, and names of files.
_arguments \
    '--all[with a match: write every finding, and how many they are]' \
    '--quiet[without a match: leave out the faults in words]' \
    '(- :)'{-h,--help}'[print help]' \
    '(- :)'{-V,--version}'[print version]' \
    '1:file of the market:_files' \
    '2::file of the match:_files'

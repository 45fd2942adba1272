#compdef nrexplain
# Completes the words of nrexplain in zsh: its options, and names of files.
_arguments \
    '--public[leave out ranks, quotas, and how many are ahead]' \
    '(- :)'{-h,--help}'[print help]' \
    '(- :)'{-V,--version}'[print version]' \
    '1:file of the market:_files' \
    '2:file of the match:_files' \
    '*:id of an applicant or a couple:'

#compdef nrreport
# Completes the words of nrreport in zsh: its options, and names of files.
_arguments \
    '--html[write a page of HTML]' \
    '(- :)'{-h,--help}'[print help]' \
    '(- :)'{-V,--version}'[print version]' \
    '1:file of the market:_files' \
    '2:file of the match:_files'

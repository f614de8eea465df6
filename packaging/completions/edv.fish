# Completion of edv's words for fish. `tests/usage --write` makes it of packaging/words.toml.
function __edv_no_job
    test (count (commandline -opc)) -eq 1
end
function __edv_job
    set -l words (commandline -opc)
    test (count $words) -ge 2; and test $words[2] = $argv[1]
end
complete -c edv -f
complete -c edv -n __edv_no_job -a help -d 'show the words of one'
complete -c edv -n __edv_no_job -l version -d 'show the version'
complete -c edv -n '__edv_job help' -a 'edit vouch explain check run fits'
complete -c edv -l help -d 'show the words'
complete -c edv -n __edv_no_job -a edit -d 'run a script over a file'
complete -c edv -n __edv_no_job -a vouch -d 'write a certificate'
complete -c edv -n __edv_no_job -a explain -d 'tell what is known before each command'
complete -c edv -n __edv_no_job -a check -d 'check a certificate'
complete -c edv -n __edv_no_job -a run -d 'run what is certified'
complete -c edv -n __edv_no_job -a fits -d 'test a file by a certificate'
complete -c edv -n '__edv_job edit' -l vouched -d 'run only what is vouched for'
complete -c edv -n '__edv_job edit' -l like -r -F -d 'vouch for files like this one'
complete -c edv -n '__edv_job edit' -l at -x -d 'lines that the file has'
complete -c edv -n '__edv_job edit' -l whole -d 'replace files whole, at the end'
complete -c edv -n '__edv_job edit' -l backup -x -d 'keep the old files under names with this'
complete -c edv -n '__edv_job edit' -l unchanged -d 'leave a file alone that has the bytes'
complete -c edv -n '__edv_job edit' -s n -l dry-run -d 'write no file'
complete -c edv -n '__edv_job edit' -l diff -d 'show what would change'
complete -c edv -n '__edv_job edit' -s s -d 'write no counts of bytes'
complete -c edv -n '__edv_job edit' -s p -x -d 'write a prompt'
complete -c edv -n '__edv_job edit' -s f -r -k -a '(__fish_complete_suffix .ed)' -d 'read the script from a file'
complete -c edv -n '__edv_job edit' -F
complete -c edv -n '__edv_job vouch' -l like -r -F -d 'vouch for files like this one'
complete -c edv -n '__edv_job vouch' -l min -x -d 'the fewest lines of the file'
complete -c edv -n '__edv_job vouch' -l max -x -a 'any' -d 'the most lines of the file'
complete -c edv -n '__edv_job vouch' -l all -d 'show all that may fail'
complete -c edv -n '__edv_job vouch' -s q -l quiet -d 'write nothing'
complete -c edv -n '__edv_job vouch' -l patterns -d 'tell of patterns that lines match'
complete -c edv -n '__edv_job vouch' -l has -x -d 'a pattern that some line matches'
complete -c edv -n '__edv_job vouch' -l at -x -d 'lines that the file has'
complete -c edv -n '__edv_job vouch' -s f -r -k -a '(__fish_complete_suffix .ed)' -d 'read the script from a file'
complete -c edv -n '__edv_job vouch' -F
complete -c edv -n '__edv_job explain' -l like -r -F -d 'take a start from a file like this one'
complete -c edv -n '__edv_job explain' -l min -x -d 'the fewest lines of the file'
complete -c edv -n '__edv_job explain' -l max -x -a 'any' -d 'the most lines of the file'
complete -c edv -n '__edv_job explain' -l patterns -d 'tell of patterns that lines match'
complete -c edv -n '__edv_job explain' -l has -x -d 'a pattern that some line matches'
complete -c edv -n '__edv_job explain' -l at -x -d 'lines that the file has'
complete -c edv -n '__edv_job explain' -s f -r -k -a '(__fish_complete_suffix .ed)' -d 'read the script from a file'
complete -c edv -n '__edv_job explain' -k -a '(__fish_complete_suffix .cert)'
complete -c edv -n '__edv_job check' -s f -r -k -a '(__fish_complete_suffix .ed)' -d 'read the script from a file'
complete -c edv -n '__edv_job check' -k -a '(__fish_complete_suffix .cert)'
complete -c edv -n '__edv_job run' -l whole -d 'replace files whole, at the end'
complete -c edv -n '__edv_job run' -l backup -x -d 'keep the old files under names with this'
complete -c edv -n '__edv_job run' -s n -l dry-run -d 'write no file'
complete -c edv -n '__edv_job run' -l diff -d 'show what would change'
complete -c edv -n '__edv_job run' -s s -d 'write no counts of bytes'
complete -c edv -n '__edv_job run' -s f -r -k -a '(__fish_complete_suffix .ed)' -d 'read the script from a file'
complete -c edv -n '__edv_job run' -k -a '(__fish_complete_suffix .cert)'
complete -c edv -n '__edv_job fits' -k -a '(__fish_complete_suffix .cert)'
complete -c ed_main -w edv

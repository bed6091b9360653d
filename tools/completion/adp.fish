# Completion of `adp` for fish: modes, options of the mode, algebras of the jobs that are named, and files, jobs first.

function __adp_modes
    printf '%s\t%s\n' best 'the report of each word' serial 'the same bytes, by one sweep over each word' \
        wins 'the reports, and how the work was shared' replay 'as wins, in the order of a schedule' \
        lex 'the best by one algebra and, among equals, by a second one' \
        kbest 'the first trees of each word' \
        cert 'a certificate, with the job' verify 'a certificate is checked line by line' \
        big 'a word that is made, with no job'
end

# Whether one of these modes stands there; without any, whether some mode does.
function __adp_in
    set -l modes $argv
    test (count $modes) -gt 0; or set modes (__adp_modes | string split -f 1 \t)
    __fish_seen_subcommand_from $modes
end

function __adp_algebras
    for job in (commandline -opc)
        test -f $job; and sed -n '/^ *words *$/q; s/^ *algebra  *\([A-Za-z0-9_]*\).*/\1/p' $job
    end
end

complete -c adp -f
complete -c adp -n 'not __adp_in' -a '(__adp_modes)'
complete -c adp -n '__adp_in best serial wins replay lex kbest cert' -a '(__fish_complete_suffix .adp)'
complete -c adp -n '__adp_in verify' -a '(__fish_complete_suffix .cert)'
complete -c adp -n '__adp_in best serial wins replay lex kbest cert verify' -l algebra -x -a '(__adp_algebras)' -d 'the algebra that scores'
complete -c adp -n '__adp_in best serial wins replay lex kbest cert' -l words -r -F -d 'a file with more words'
complete -c adp -n '__adp_in best serial wins replay lex kbest cert' -l only-words -r -F -d 'a file with words in the place of those of the job'
complete -c adp -n '__adp_in cert' -l certificates -x -a '(__fish_complete_directories)' -d 'a folder for a certificate of each word'
complete -c adp -n '__adp_in best serial wins replay lex cert big' -l workers -x -a '1 2 4 8 16 32' -d 'how many evaluators'
complete -c adp -n '__adp_in best serial wins replay lex cert big' -l seed -x -d 'the seed of their visiting orders'
complete -c adp -n '__adp_in lex' -l then -x -a '(__adp_algebras)' -d 'the algebra that decides among equals'
complete -c adp -n '__adp_in replay' -l schedule -x -d 'who makes each step, 0 to 9 and a to v'
complete -c adp -n '__adp_in kbest' -l best -x -d 'how many trees are listed, 1 to 64'
complete -c adp -n '__adp_in big' -l size -x -d 'how many letters are made, 1 to 2046'
complete -c adp -l time-limit -x -d 'end each run after so many seconds'
complete -c adp -l explain -d 'tell behind a fault what is wrong, where, and what to do'
complete -c adp -l quiet -d 'no remark on words without a tree, and on long certificates'
complete -c adp -s V -l version -d 'say what stands here'
complete -c adp -s h -l help -d 'say how it is called'

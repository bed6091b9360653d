" Syntax of jobs of adp, for Vim: as ~/.vim/syntax/adp.vim, with `autocmd BufRead,BufNewFile *.adp setfiletype adp`.
if exists('b:current_syntax')
  finish
endif
syntax case match

" the header: line 1, then lines by their first word, up to `words`
syntax match adpFormat /\%1l^adp [123]$/
syntax match adpComment /^#.*$/
syntax match adpKeyword /^ *\%(class\|sign\|algebra\|let\|rule\|grammar\)\ze\%( \|$\)/ nextgroup=adpName skipwhite
syntax match adpName /\<[A-Za-z]\w*\>/ contained
syntax match adpKind /\<\%(token\|score\|min\|max\)\>/
" a size behind an alternative
syntax match adpSize /) *\zswith \+size\>/
syntax match adpNumber /\<\d\+\>/
syntax match adpMark /[=|*+]\|-\|\.\./
syntax match adpSign /\<[A-Za-z]\w*\ze *(/
" in a term `max` and `min` are operations where a bracket follows
syntax match adpChoice /\%(^ *let\>.*=.*\)\@<=\<\%(min\|max\)\ze *(/
syntax region adpLetters start=/"/ skip=/\\"\|\\\\/ end=/"/ oneline contains=adpEscape
syntax match adpEscape /\\["\\]/ contained
syntax match adpClass /\[ *[A-Za-z]\w*/hs=s+1

" all that stands behind `words` is words
syntax region adpWords matchgroup=adpKeyword start=/^ *words *$/ end=/\%$/ contains=NONE

highlight default link adpFormat PreProc
highlight default link adpComment Comment
highlight default link adpKeyword Keyword
highlight default link adpName Identifier
highlight default link adpKind Type
highlight default link adpSize Keyword
highlight default link adpChoice Operator
highlight default link adpNumber Number
highlight default link adpMark Operator
highlight default link adpSign Function
highlight default link adpClass Type
highlight default link adpLetters String
highlight default link adpEscape SpecialChar
highlight default link adpWords Normal
let b:current_syntax = 'adp'

" Vim syntax file
" Language: bundles and traces of aioc

if exists("b:current_syntax")
  finish
endif

syn case match

" names, and what is more than a name; of two that begin at one place the later one wins
syn match aiocName "\<\a\w*\>"
syn match aiocNumber "\<\d\+\>"

" symbols
syn match aiocPunctuation "\V{"
syn match aiocPunctuation "\V}"
syn match aiocPunctuation "\V("
syn match aiocPunctuation "\V)"
syn match aiocPunctuation "\V["
syn match aiocPunctuation "\V]"
syn match aiocPunctuation "\V;"
syn match aiocPunctuation "\V,"
syn match aiocOperator "\V:"
syn match aiocOperator "\V|"
syn match aiocOperator "\V@"
syn match aiocOperator "\V="
syn match aiocOperator "\V=="
syn match aiocOperator "\V!="
syn match aiocOperator "\V<"
syn match aiocOperator "\V<="
syn match aiocOperator "\V>"
syn match aiocOperator "\V>="
syn match aiocOperator "\V+"
syn match aiocOperator "\V++"
syn match aiocOperator "\V-"
syn match aiocOperator "\V->"
syn match aiocOperator "\V*"
syn match aiocOperator "\V/"
syn match aiocOperator "\V%"
syn match aiocOperator "\V."
syn match aiocOperator "\V#"
syn match aiocOperator "\V!"

" operations, roles, properties and keys
syn match aiocRole "\<\a\w*\>\ze\s*:"
syn match aiocOperation "\<\a\w*\>\ze\s*:\s*\a\w*\s*("
syn match aiocRole "\(\<\a\w*\s*:\s*\)\@<=\a\w*\>\ze\s*("
syn match aiocRole "\(@\s*\)\@<=\a\w*\>"
syn match aiocRole "\(->\s*\)\@<=\a\w*\>"
syn match aiocRole "\(\<roles\s*{[^}]*\)\@<=\<\a\w*\>"
syn match aiocProperty "\(\<[NE]\s*\.\s*\)\@<=\a\w*\>"

" traces: roles, operations, tags and indices
syn match aiocRole "\(\<\%(put\|take\)\s\+\)\@<=\a\w*\>\ze\s*->"
syn match aiocRole "\(\<\%(pick\|scope\)\s\+\)\@<=\a\w*\>\ze\s*#"
syn match aiocOperation "\(->\s*\a\w*\s\+\)\@<=\a\w*\>\ze\s*#"
syn match aiocTag "!\%(choice\|go\|turn\|begin\|end\|out\)\>"
syn match aiocIndex "#\s*\d\+\s*\.\s*\d\+"

" words that stand only in their place
syn match aiocEntry "\<\%(put\|take\)\>\ze\s\+\a\w*\s*->"
syn match aiocEntry "\<pick\>\ze\s\+\a\w*\s*#"
syn match aiocEntry "\<set\>\ze\s\+\a\w*\s*@"
syn match aiocEntry "\<\%(as\|part\|ended\|stopped\)\>\ze\s\+\d"
syn match aiocEntry "\<\%(keep\|done\)\>\ze\s*\%($\|}\|//\)"
syn match aiocRule "\(\<\%(add\|drop\)\s\+\)\@<=\a\w*\>"
syn match aiocChange "\<\%(add\|drop\)\>\ze\s\+\a"
syn match aiocChange "\<after\>\ze\s\+\d"
syn match aiocChange "\<env\>\ze\s\+\a\w*\s*="
syn match aiocSection "\<\%(rules\|env\|inputs\|script\|trace\|session\|roles\)\>\ze\s*{"
syn match aiocSection "\<\%(version\|priority\)\>\ze\s*-\?\s*\d"
syn match aiocRule "\(\<rule\s\+\)\@<=\a\w*\>"

" reserved words
syn keyword aiocKeyword aioc skip if else while scope prop rule on do input
syn keyword aiocWordOperator and or not
syn keyword aiocConstant true false nil
syn keyword aiocScopeWord N E

syn match aiocText +"\%([ !#-\[\]-~]\|\\["\\]\)*"+
syn match aiocComment "//.*$"

hi def link aiocName Identifier
hi def link aiocNumber Number
hi def link aiocPunctuation Delimiter
hi def link aiocOperator Operator
hi def link aiocRole Type
hi def link aiocOperation Function
hi def link aiocProperty Identifier
hi def link aiocTag Special
hi def link aiocIndex Special
hi def link aiocEntry Statement
hi def link aiocRule Function
hi def link aiocChange Statement
hi def link aiocSection PreProc
hi def link aiocKeyword Keyword
hi def link aiocWordOperator Operator
hi def link aiocConstant Constant
hi def link aiocScopeWord Identifier
hi def link aiocText String
hi def link aiocComment Comment

let b:current_syntax = "aioc"

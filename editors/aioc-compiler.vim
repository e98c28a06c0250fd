" Vim compiler file: what is wrong with a bundle, by aioc-tool.
" With it as compiler/aioc.vim in the folder of Vim: `:compiler aioc`, then `:make %` goes to the place.
if exists("current_compiler")
  finish
endif
let current_compiler = "aioc"
CompilerSet makeprg=aioc-tool\ explain
CompilerSet errorformat=%f:%l:%c:\ error:\ %m,%-G%.%#

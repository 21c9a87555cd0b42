" Vim's compiler plugin for `protols check`. Copy it to ~/.vim/compiler/, then
"
"   :compiler protols
"   :make --root protos
"
" lists the faults and jumps to the first; :cnext goes on. Vim counts columns in bytes, protols in UTF-16 units: behind an `é` the column is too small.

if exists('current_compiler')
  finish
endif
let current_compiler = 'protols'

CompilerSet makeprg=protols\ check\ --quiet\ --format\ gnu
CompilerSet errorformat=%f:%l:%c:\ %trror:\ %m,%f:%l:%c:\ %tnfo:\ %m

" Vim compiler file
" Compiler: desk, which checks the text that is edited: :make, then :cnext

if exists("current_compiler")
  finish
endif
let current_compiler = "desk"

CompilerSet makeprg=desk\ check\ --format=gcc\ %:S
" Columns are characters. What cannot be read is told without a line.
CompilerSet errorformat=%f:%l:%v:\ %trror:\ %m,%f:%l:%v:\ %tarning:\ %m,desk\ check:\ %f:\ %m

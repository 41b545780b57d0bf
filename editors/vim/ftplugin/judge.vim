" Vim filetype plugin file
" Language: texts of vocabularies and scripts, as desk reads them (docs/DESK.md)

if exists("b:did_ftplugin")
  finish
endif
let b:did_ftplugin = 1

setlocal comments=:-- commentstring=--\ %s
compiler desk
let b:undo_ftplugin = "setlocal comments< commentstring< makeprg< errorformat<"

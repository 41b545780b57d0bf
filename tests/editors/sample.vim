" What Vim makes of the samples, for tests/editors.sh: the groups of the places that sample.expected has, in its form; then
" what :make finds. Written to $OUT.
set nocompatible encoding=utf-8
let &runtimepath = $EDITORS . '/vim,' . &runtimepath
filetype plugin on
syntax on

let lines = []
let places = {}
for wanted in readfile($SAMPLES . '/sample.expected')
  let parts = matchlist(wanted, '^\(\S*\) \(\d*\) \(.*\) \(\S*\)$')
  let [file, number, word] = parts[1:3]
  if expand('%:t') !=# file
    execute 'edit' fnameescape($SAMPLES . '/' . file)
    if &filetype !=# 'judge'
      call add(lines, file . ': the filetype is ' . &filetype)
    endif
  endif
  let place = file . ' ' . number
  let at = stridx(getline(number), word, get(places, place, 0))
  let places[place] = at + 1
  let group = synIDattr(synID(number, at + 1, 1), 'name')
  let sort = tolower(substitute(group, '^judge', '', ''))
  call add(lines, join([file, number, word, sort is# 'linenumber' ? 'line' : sort]))
endfor

" A text of another sort is none of ours.
execute 'edit' fnameescape($WORK . '/other.text')
call add(lines, 'other.text is ours: ' . (&filetype ==# 'judge'))

for file in ['faulty words.text', 'contradiction.judge', 'gone.judge']
  execute 'edit' fnameescape($WORK . '/' . file)
  if file ==# 'gone.judge'
    call delete($WORK . '/gone.judge')
  endif
  silent make!
  for entry in getqflist()
    if entry.valid
      let name = fnamemodify(bufname(entry.bufnr), ':t')
      call add(lines, join([name, entry.lnum, entry.col, entry.vcol, entry.type, entry.text]))
    endif
  endfor
endfor
call writefile(lines, $OUT)
qall!

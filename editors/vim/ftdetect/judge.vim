" Texts of vocabularies and scripts: *.judge, and other *.text whose first line that is no comment is a header.
autocmd BufNewFile,BufRead *.judge setfiletype judge
autocmd BufRead *.text
      \ if join(getline(1, 100), "\n") =~# '^\_s*\%(--[^\n]*\n\_s*\)*\%(vocabulary\s\+\%(roles\|raw\)\>\|script\s\+\%(#\|raw\>\)\)' |
      \   set filetype=judge |
      \ endif

" Boogie programs in Vim: `:make` checks the file, and its error list has what isn't proved. In .vimrc:
"
"     source /path/to/bplserve/examples/editor/bplserve.vim

let s:check = expand('<sfile>:p:h') . '/check.py'

function! s:Boogie()
  setlocal filetype=boogie commentstring=//\ %s
  let &l:makeprg = shellescape(s:check) . ' %:S'
  let &l:errorformat = '%E%f(%l\,%c): Error: %m,%I%f(%l\,%c): Related location: %m,%-G%.%#'
endfunction

augroup bplserve
  autocmd!
  autocmd BufRead,BufNewFile *.bpl call s:Boogie()
augroup END

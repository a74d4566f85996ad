" Vim with ALE, in batch: shows the fault of a text, goes to a definition, and gives another name. What it saw goes to the
" file OUT, a line each. $EDITORS is the folder of the editors' files.
set nocompatible nomore hidden
let &runtimepath = $EDITORS . '/vim,' . &runtimepath
let g:ale_linters_explicit = 1
let g:ale_linters = {'warpd': ['warpd']}
let g:ale_set_quickfix = 0
let g:ale_echo_cursor = 0
let g:ale_cursor_detail = 0
filetype plugin indent on
syntax on
packadd ale

let s:lines = []
function! s:Wait(condition) abort
  for turn in range(1200)
    if eval(a:condition)
      return
    endif
    sleep 50m
  endfor
  call add(s:lines, 'waited in vain for ' . a:condition)
endfunction

function! s:Faults() abort
  let found = map(copy(getloclist(0)), {_, it -> it.lnum . ':' . it.col . ' ' . substitute(it.text, "\n.*", '', '')})
  return join(found, '; ')
endfunction

" ALE asks for the new name; nobody is there to write it.
function! s:Rename(name) abort
  call ale#util#Execute('silent! runtime autoload/ale/util.vim')
  let g:new_name = a:name
  function! ale#util#Input(...) abort
    return g:new_name
  endfunction
  ALERename
endfunction

function! s:Do() abort
  edit game.lf
  call add(s:lines, 'filetype ' . &filetype)
  let places = [[2, 1], [5, 20], [8, 23], [8, 29], [8, 12]]
  call add(s:lines, 'colour ' . join(map(places, {_, it -> synIDattr(synID(it[0], it[1], 1), 'name')})))
  ALELint
  call s:Wait('!empty(getloclist(0))')
  call add(s:lines, 'fault ' . s:Faults())
  call cursor(5, 20)
  normal! ce
  execute "normal! alives\<Esc>"
  ALELint
  call s:Wait('empty(getloclist(0))')
  call cursor(5, 21)
  ALEGoToDefinition
  call s:Wait('line(".") == 3')
  call add(s:lines, 'definition ' . line('.') . ':' . col('.'))
  call s:Rename('hearts')
  call s:Wait('getline(5) =~# "hearts"')
  call add(s:lines, 'renamed ' . getline(3) . ' ' . getline(5))
endfunction

try
  call s:Do()
catch
  call add(s:lines, v:exception . ' at ' . v:throwpoint)
endtry
call writefile(s:lines, 'OUT')
call ale#lsp#StopAll()
qall!

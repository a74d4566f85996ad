" Indents by two for each brace, bracket and {= that is open.
if exists('b:did_indent')
  finish
endif
let b:did_indent = 1

setlocal indentexpr=WarpdIndent()
setlocal indentkeys=0},0),0],0=\=},!^F,o,O,e
let b:undo_indent = 'setlocal indentexpr< indentkeys<'

if exists('*WarpdIndent')
  finish
endif

" A line without its comment and its texts.
function! s:Plain(number) abort
  return substitute(substitute(getline(a:number), '"[^"]*"', '', 'g'), '//.*$', '', '')
endfunction

function! s:Count(text, pattern) abort
  return len(split(a:text, a:pattern, 1)) - 1
endfunction

function! WarpdIndent() abort
  let before = prevnonblank(v:lnum - 1)
  if before == 0
    return 0
  endif
  let line = s:Plain(before)
  " What closes at the beginning of the line before has been counted for that line itself.
  let rest = substitute(line, '^\s*\%(=\?}\|)\|\]\)*', '', '')
  let opened = s:Count(rest, '[{(\[]') - s:Count(rest, '[})\]]')
  let closes = s:Plain(v:lnum) =~# '^\s*\%(=\?}\|)\|\]\)'
  return indent(before) + shiftwidth() * (opened > 0 ? 1 : opened) - shiftwidth() * closes
endfunction

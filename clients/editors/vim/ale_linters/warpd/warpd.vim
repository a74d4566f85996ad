" ALE asks the language server of warpd's compiler. Where that is stands in g:ale_warpd_executable; without it, it is that
" of the checkout that has this file, or else the one on the path.
call ale#Set('warpd_executable', '')

let s:near = fnamemodify(resolve(expand('<sfile>:p')), ':h:h:h:h:h') . '/python/warpd-compile'

function! ale_linters#warpd#warpd#GetExecutable(buffer) abort
  let l:set = ale#Var(a:buffer, 'warpd_executable')
  return !empty(l:set) ? l:set : executable(s:near) ? s:near : 'warpd-compile'
endfunction

function! ale_linters#warpd#warpd#GetProjectRoot(buffer) abort
  let l:git = ale#path#FindNearestDirectory(a:buffer, '.git')
  return !empty(l:git) ? fnamemodify(l:git, ':h:h') : expand('#' . a:buffer . ':p:h')
endfunction

call ale#linter#Define('warpd', {
\   'name': 'warpd',
\   'lsp': 'stdio',
\   'executable': function('ale_linters#warpd#warpd#GetExecutable'),
\   'command': '%e --lsp',
\   'language': 'warpd',
\   'project_root': function('ale_linters#warpd#warpd#GetProjectRoot'),
\})

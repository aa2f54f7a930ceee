" Modules of Yarrow: `:make` lists all refusals, `:YarrowSystem L2` chooses the system in which it checks.
" Before a choice it is that of g:yarrow_system, or else LC.
if exists('b:did_ftplugin')
  finish
endif
let b:did_ftplugin = 1

let s:script = fnamemodify(resolve(expand('<sfile>:p')), ':h:h:h:h') . '/bin/yarrow'

function! s:CheckIn(system) abort
  let b:yarrow_system = a:system
  let &l:makeprg = shellescape(s:script, 1) . ' lint ' . shellescape(a:system, 1) . ' %:S'
endfunction

function! s:Systems(lead, line, place) abort
  return map(glob(fnamemodify(s:script, ':h:h') . '/systems/' . a:lead . '*.toml', 0, 1), "fnamemodify(v:val, ':t:r')")
endfunction

command! -buffer -nargs=1 -complete=customlist,s:Systems YarrowSystem call s:CheckIn(<q-args>)
call s:CheckIn(get(b:, 'yarrow_system', get(g:, 'yarrow_system', 'LC')))

" FILE:LINE:COLUMN-END: SENTENCE, with columns as they are on the screen.
setlocal errorformat=%f:%l:%v-%*\\d:\ %m
setlocal commentstring=%\ %s comments=:%
setlocal conceallevel=2

let b:undo_ftplugin = 'setlocal makeprg< errorformat< commentstring< comments< conceallevel< | delcommand YarrowSystem'

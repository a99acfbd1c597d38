" How queries of sqre are edited; with :make each refusal is at its place in the quickfix list.
if exists('b:did_ftplugin')
  finish
endif
let b:did_ftplugin = 1
setlocal commentstring=#\ %s
let &l:makeprg = executable('sqre-explain') ? 'sqre-explain %:S' : 'sqre check %:S'
setlocal errorformat=%f:%l:%c\ (the\ column\ in\ bytes):\ %m,%-G%.%#
let b:undo_ftplugin = 'setlocal commentstring< makeprg< errorformat<'

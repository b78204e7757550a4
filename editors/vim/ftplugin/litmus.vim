" Listings of herd's for X86 and X86_64: :make works in each of their buffers.
if exists('b:did_ftplugin')
  finish
endif
let b:did_ftplugin = 1
compiler pipecheck
setlocal commentstring=(*%s*)
let b:undo_ftplugin = 'setlocal commentstring< makeprg< errorformat<'

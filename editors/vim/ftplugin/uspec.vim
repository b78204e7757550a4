" µspec models and queries: :make works in each of their buffers, and so in the one that it jumps to.
if exists('b:did_ftplugin')
  finish
endif
let b:did_ftplugin = 1
compiler pipecheck
setlocal commentstring=%\ %s
let b:undo_ftplugin = 'setlocal commentstring< makeprg< errorformat<'

" :make check MODEL TEST jumps to the place of a refusal, and :make lint MODEL TEST to each slip. The filetypes take it for
" each of their buffers; :compiler! pipecheck takes it for all others, too.
if exists('current_compiler')
  finish
endif
let current_compiler = 'pipecheck'
CompilerSet makeprg=pipecheck
CompilerSet errorformat=%f:%l:%c:\ %m,%-G%.%#

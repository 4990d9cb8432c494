" :make checks the program; made by tools/make-files.
if exists('current_compiler')
  finish
endif
let current_compiler = 'hept'
CompilerSet makeprg=hept-explain\ check\ %:S
CompilerSet errorformat=%Eerror[%*[A-Z0-9]]:\ %m,%Z%*[\ ]-->\ %f:%l:%c,%-G%.%#

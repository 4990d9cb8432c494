" Programs of hept; made by tools/make-files.
if exists('b:did_ftplugin')
  finish
endif
let b:did_ftplugin = 1
setlocal commentstring=(*%s*) comments=s:(*,m:*,e:*) shiftwidth=2 expandtab
compiler hept

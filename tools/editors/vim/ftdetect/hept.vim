autocmd BufNewFile,BufRead *.ept set filetype=hept

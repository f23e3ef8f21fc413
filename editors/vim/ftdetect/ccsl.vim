autocmd BufNewFile,BufRead *.ccsl setfiletype ccsl

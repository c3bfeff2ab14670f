autocmd BufNewFile,BufRead *.ep setfiletype epass

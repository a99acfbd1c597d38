autocmd BufNewFile,BufRead *.sqre setfiletype sqre

autocmd BufNewFile,BufRead *.fy setfiletype forsythe

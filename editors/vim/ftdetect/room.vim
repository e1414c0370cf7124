autocmd BufRead,BufNewFile *.room setfiletype room

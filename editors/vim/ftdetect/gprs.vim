autocmd BufRead,BufNewFile *.gp setfiletype gprs

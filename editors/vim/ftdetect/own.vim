autocmd BufRead,BufNewFile *.own setfiletype own

autocmd BufRead,BufNewFile *.sapper setfiletype sapper

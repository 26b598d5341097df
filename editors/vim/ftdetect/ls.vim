autocmd BufRead,BufNewFile *.ls set filetype=ls

autocmd BufNewFile,BufRead Tupfile,*.tup setfiletype tup
autocmd BufNewFile,BufRead *.antt setfiletype antt

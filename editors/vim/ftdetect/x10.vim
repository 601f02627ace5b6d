" A file that ends in .x10 is a source, unless it begins with the bytes of an image.
autocmd BufNewFile,BufRead *.x10 if getline(1) !~# '^X10P' | set filetype=x10 | setlocal commentstring=//\ %s | endif

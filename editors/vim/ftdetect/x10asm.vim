" A file that ends in .asm is a text of x10p where its first line, but for comments and blank ones, is one with which such a
" text begins.
function! s:look()
  for line in getline(1, 200)
    if line !~# '^ *\(;.*\)\?$'
      if line =~# '^ *\(places\|version\) \+[0-9]\+ *$'
        set filetype=x10asm
      endif
      return
    endif
  endfor
endfunction
autocmd BufNewFile,BufRead *.asm call s:look()

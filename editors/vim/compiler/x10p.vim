" Vim compiler file for x10p: after `:compiler x10p` checks `:make` the text, and `:cnext` goes to the next fault.
if exists("current_compiler")
  finish
endif
let current_compiler = "x10p"

" the lines of x10p don't name the text, so its name is printed before them
CompilerSet makeprg=(echo\ text\ %:S;\ x10p\ check\ %:S)
CompilerSet errorformat=%-Ptext\ %f
CompilerSet errorformat+=%E%m\\,\ line\ %l:\ %.%#
CompilerSet errorformat+=%E%m\\,\ function\ %*\\d\\,\ instruction\ %*\\d:\ %.%#
CompilerSet errorformat+=%Cline\ %l:\ %.%#
" the marks below a word
CompilerSet errorformat+=%C\ %#^%#
CompilerSet errorformat+=%Z%m
CompilerSet errorformat+=%+Gx10p:\ file
CompilerSet errorformat+=%-G%.%#

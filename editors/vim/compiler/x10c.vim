" Vim compiler file for x10c: after `:compiler x10c` checks `:make` the source, and `:cnext` goes to the fault.
if exists("current_compiler")
  finish
endif
let current_compiler = "x10c"

CompilerSet makeprg=x10c\ check\ %:S
CompilerSet errorformat=%f:%l:%c:\ %m
CompilerSet errorformat+=%-G%.%#

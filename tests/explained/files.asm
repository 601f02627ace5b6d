; Files that aren't there, that can't be written, and a text that would be its own image: which file it is, and the system's
; reason.
;
; $ x10p run nowhere.x10 --explain
; status 4: file
; > nowhere.x10 can't be read: No such file or directory (os error 2).
; $ x10p asm --explain nowhere.asm files.x10
; status 4: file
; > nowhere.asm can't be read: No such file or directory (os error 2).
; $ x10p verify --explain .
; status 4: file
; > . can't be read: Is a directory (os error 21).
; $ x10p asm --explain files.asm nowhere/files.x10
; status 4: file
; > nowhere/files.x10 can't be written: No such file or directory (os error 2).
; $ x10p asm --explain files.asm .
; status 4: file
; > . can't be written: Is a directory (os error 21).
; $ x10p asm --explain files.asm files.asm
; status 4: file
; > files.asm is the same file as files.asm.
; $ x10p run --explain files.x10
; 0: 7
places 1
int 7
func 1 0 none
INTK 0 0
PRINT 0
RET 0
end
entry 0

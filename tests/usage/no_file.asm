; A file that isn't there, and one that can't be written.
;
; $ x10p asm nowhere.asm other.x10
; status 4: file
; $ x10p run nowhere.x10
; status 4: file
; $ x10p asm no_file.asm nowhere/other.x10
; status 4: file
places 1
func 1 0 none
RET 0
end
entry 0

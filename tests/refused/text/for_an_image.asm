; Where a command is given a text in place of an image, it refuses the text as `asm` does.
;
; $ x10p asm for_an_image.asm for_an_image.x10
; status 1: asm: line 16 Count
; $ x10p run for_an_image.asm
; status 1: asm: line 16 Count
; $ x10p list for_an_image.asm
; status 1: asm: line 16 Count
; $ x10p draw for_an_image.asm for_an_image.svg
; status 1: asm: line 16 Count
places 1
int 7

; (too few words in the next line)
func 1 0 none
INTK 0
PRINT 0
RET 0
end
entry 0

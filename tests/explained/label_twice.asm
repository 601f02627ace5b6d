; A label that is there twice.
;
; $ x10p asm --explain label_twice.asm label_twice.x10
; status 1: asm: line 13 Label
; > label_twice.asm:13:2: Label:  here:
; >                               ^^^^^
; > `here` is defined already, in line 11.
places 1
int 7
func 1 0 none
 here:
INTK 0 0
 here:
PRINT 0
RET 0
end
entry 0

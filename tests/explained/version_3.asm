; There is no version 3.
;
; $ x10p asm --explain version_3.asm version_3.x10
; status 1: asm: line 8 Number
; > version_3.asm:8:9: Number: version 3
; >                                    ^
; > `3` isn't 2; a text of version 1 has no line `version`.
version 3
places 1
int 7
func 1 0 none
INTK 0 0
PRINT 0
RET 0
end
entry 0

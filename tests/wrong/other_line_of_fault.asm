; The fault is in line 5.
;
; $ x10p asm other_line_of_fault.asm other_line_of_fault.x10
; status 1: asm: line 6 Word
places one

; Each command that takes an image takes a text too, whose name ends in .asm.
;
; $ x10p run a_text_is_enough.asm
; 0: 7
; takes 3 events
; $ x10p run a_text_is_enough.asm --threads
; 0: 7
; $ x10p verify a_text_is_enough.asm
; verified 1 functions, entry bound 3
; $ x10p bounds a_text_is_enough.asm
; 0 3
; $ x10p trace a_text_is_enough.asm
; S 0 0 0 0 INTK
; S 0 0 0 1 PRINT
; S 0 0 0 2 RET
; $ x10p list a_text_is_enough.asm
; places 1
; int 7
; func 1 0 none
; INTK 0 0
; PRINT 0
; RET 0
; end
; entry 0
places 1
int 7
func 1 0 none
  INTK 0 0
  PRINT 0
  RET 0
end
entry 0

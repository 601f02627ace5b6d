; A fault of structure in a text that is given in place of an image.
;
; $ x10p bounds structure_in_a_text.asm --explain
; status 1: verify: Structure Jump 0 1
; > structure_in_a_text.asm:11:3: Jump, function 0, instruction 1: JMP 0
; > Only ENDL goes back, and a jump goes to a later instruction; this one goes to line 10: HERE 0
places 1
func 1 0 none
again:
  HERE 0
  JMP @again
  RET 0
end
entry 0

; A kind in capitals.
;
; $ x10p asm --explain kind_in_capitals.asm kind_in_capitals.x10
; status 1: asm: line 9 Word
; > kind_in_capitals.asm:9:7: Word: class INT
; >                                       ^^^
; > `INT` isn't a kind. Did you mean int?
places 1
class INT
func 1 0 none
RET 0
end
entry 0

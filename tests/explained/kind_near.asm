; A kind that is written out.
;
; $ x10p asm --explain kind_near.asm kind_near.x10
; status 1: asm: line 9 Word
; > kind_near.asm:9:15: Word: func 1 0 none integer
; >                                         ^^^^^^^
; > `integer` isn't a kind. Did you mean int?
places 1
func 1 0 none integer
RET 0
end
func 1 0 none
RET 0
end
entry 1

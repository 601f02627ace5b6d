; A parameter that is none.
;
; $ x10p asm --explain none_for_a_parameter.asm none_for_a_parameter.x10
; status 1: asm: line 9 Word
; > none_for_a_parameter.asm:9:15: Word: func 1 0 none none
; >                                                    ^^^^
; > `none` is for a result alone; here no word is needed.
places 1
func 1 0 none none
RET 0
end
entry 0

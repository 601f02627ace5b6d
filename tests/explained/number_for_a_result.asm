; A number where the kind of the result belongs.
;
; $ x10p asm --explain number_for_a_result.asm number_for_a_result.x10
; status 1: asm: line 10 Word
; > number_for_a_result.asm:10:10: Word: func 1 0 0
; >                                               ^
; > `0` isn't a kind; this word is the kind of the result, or none.
; > Kinds are int, place, text, rail, obj:c, opt:c, gref:c and here:c, where c is the number of a class.
places 1
func 1 0 0
RET 0
end
entry 0

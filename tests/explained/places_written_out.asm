; The number of places as a word.
;
; $ x10p asm --explain places_written_out.asm places_written_out.x10
; status 1: asm: line 9 Number
; > places_written_out.asm:9:8: Number: places two
; >                                            ^^^
; > `two` isn't a number; this word is the least number of places.
; > Expected: places N, the least number of places, 1 to 64.
places two
func 1 0 none
RET 0
end
entry 0

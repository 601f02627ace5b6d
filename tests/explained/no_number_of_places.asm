; The number of places is missing.
;
; $ x10p asm --explain no_number_of_places.asm no_number_of_places.x10
; status 1: asm: line 9 Count
; > no_number_of_places.asm:9:8: Count: places
; >                                            ^
; > A word is missing: the least number of places.
; > Expected: places N, the least number of places, 1 to 64.
places
func 1 0 none
RET 0
end
entry 0

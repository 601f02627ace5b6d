; A turn that ends inside an atomic region.
;
; $ x10p check region_in_a_loop_open.asm
; Nesting, function 0, instruction 2: ENDL 0 1
; line 14: ENDL 0 @turn
; An atomic region is open here, and its ATOME has to come before this ENDL. It begins in line 13: ATOMB
; status 1: verify: Structure Nesting 0 2
version 2
places 1
func 1 1 none
LOOP 0 3
turn:
ATOMB
ENDL 0 @turn
ATOME
RET 0
end
entry 0

; A loop's end with the slot of another loop.
;
; $ x10p check slot_of_another_loop.asm
; LoopSlot, function 0, instruction 3: ENDL 0 2
; line 16: ENDL 0 @inner
; ENDL has the slot of its LOOP, 1; this one has 0.
; status 1: verify: Structure LoopSlot 0 3
places 1
int 7
func 1 2 none
LOOP 0 3
outer:
LOOP 1 3
inner:
HERE 0
ENDL 0 @inner
ENDL 1 @outer
RET 0
end
entry 0

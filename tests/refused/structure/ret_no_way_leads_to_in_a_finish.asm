; A RET in a finish is refused also where no way leads to it: the rules of structure look at the text alone.
;
; $ x10p bounds ret_no_way_leads_to_in_a_finish.x10
; status 1: verify: Structure Nesting 0 2
; $ x10p verify ret_no_way_leads_to_in_a_finish.x10
; status 1: verify: Structure Nesting 0 2
places 1
func 1 0 none
FINB
JMP 3
RET 0
FINE
RET 0
end
entry 0

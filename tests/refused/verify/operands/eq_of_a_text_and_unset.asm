; Both operands are wrong, a text and a register that isn't set: the first one is named.
;
; $ x10p verify eq_of_a_text_and_unset.x10
; status 1: verify: Kind 0 0
places 1
func 2 0 none text
EQ 1 0 1
RET 0
end
func 1 0 none
RET 0
end
entry 1

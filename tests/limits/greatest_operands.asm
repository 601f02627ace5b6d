; What goes into an operand's field is assembled. Whether it names anything is the verifier's
; affair.
;
; $ x10p verify greatest_operands.x10
; status 1: verify: Index 0 1
places 1
int 7
func 1 0 none
INTK 0 0
INTK 255 4294967295
RET 0
end
entry 0

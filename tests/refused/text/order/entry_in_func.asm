; `entry` comes after `end`.
;
; $ x10p asm entry_in_func.asm entry_in_func.x10
; status 1: asm: line 9 Order
places 1
int 7
func 1 0 none
INTK 0 0
entry 0
RET 0
end
entry 0

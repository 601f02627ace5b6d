; A function after the entry.
;
; $ x10p asm --explain behind_entry.asm behind_entry.x10
; status 1: asm: line 13 Order
; > behind_entry.asm:13:1: Order: func 1 0 none
; >                               ^^^^
; > The text ends with `entry`, which is in line 12.
places 1
func 1 0 none
RET 0
end
entry 0
func 1 0 none
RET 0
end

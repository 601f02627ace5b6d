; A constant number above the greatest.
;
; $ x10p asm --explain int_out_of_range.asm int_out_of_range.x10
; status 1: asm: line 9 Number
; > int_out_of_range.asm:9:5: Number: int 9223372036854775808
; >                                       ^^^^^^^^^^^^^^^^^^^
; > `9223372036854775808` is out of range: the number is -9223372036854775808 to 9223372036854775807.
places 1
int 9223372036854775808
func 1 0 none
INTK 0 0
PRINT 0
RET 0
end
entry 0

; A check tells each line that is faulty whatever the others say, with its mark. Whether a label is there hangs on others.
;
; $ x10p check several_lines.asm
; Number, line 30: int 0x7
;                      ^^^
; `0x7` isn't a decimal number, and there are no others.
; Expected: int N, from -9223372036854775808 to 9223372036854775807.
; Number, line 32: func 1 0 none obj:2
;                                ^^^^^
; There is no class 2: the text has 1 class, number 0.
; Count, line 33: INTK 0
;                        ^
; A word is missing: the number of a constant.
; Expected: INTK REGISTER INT.
; Count, line 35: PRINT 0 0
;                         ^
; `0` is one word too many.
; Expected: PRINT REGISTER.
; Number, line 36: RET r0
;                      ^^
; `r0`: a register is its number alone, without r.
; Expected: RET RESULT-REGISTER.
; Count, line 38: entry
;                       ^
; A word is missing: the number of the entry function.
; Expected: entry N, the number of a function, from 0.
; status 1: asm: line 30 Number
places 1
class int obj:0
int 0x7
int 7
func 1 0 none obj:2
INTK 0
JMP @nowhere
PRINT 0 0
RET r0
end
entry

; One way writes a number, the other a text: behind them nothing is known of the register.
;
; $ x10p verify number_or_text.x10
; status 1: verify: Unset 0 4
places 1
int 7
text "seven"
func 2 0 none int
JZ 0 3
INTK 1 0
JMP 4
TEXTK 1 0
PRINT 1
RET 0
end
func 1 0 none
RET 0
end
entry 1

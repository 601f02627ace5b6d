; A carriage return alone, where a line should end.
;
; $ x10p asm --explain return_in_a_line.asm return_in_a_line.x10
; status 1: asm: line 11 Word
; > return_in_a_line.asm:11:1: Word: RET0
; >                                  ^^^^^
; > A line ends with a line feed, and not with a carriage return alone.
places 1
int 7
func 1 0 none
RET{{U+000D}}0
end
entry 0

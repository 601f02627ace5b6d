; A word that is near to none.
;
; $ x10p asm --explain word_not_known.asm word_not_known.x10
; status 1: asm: line 13 Word
; > word_not_known.asm:13:1: Word: SHOW 0
; >                                ^^^^
; > `SHOW` begins no line.
; > Expected: version, places, class, int, text, func, end, entry, an instruction's name in capitals, a label that ends in a colon, or a semicolon for a comment.
places 1
int 7
func 1 0 none
INTK 0 0
SHOW 0
RET 0
end
entry 0

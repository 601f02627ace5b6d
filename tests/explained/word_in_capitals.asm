; A word in capitals that is written in small letters.
;
; $ x10p asm --explain word_in_capitals.asm word_in_capitals.x10
; status 1: asm: line 9 Word
; > word_in_capitals.asm:9:1: Word: FUNC 1 0 none
; >                                 ^^^^
; > This word is in small letters: func.
places 1
FUNC 1 0 none
RET 0
end
entry 0

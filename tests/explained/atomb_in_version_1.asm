; An atomic region in a text of version 1.
;
; $ x10p check atomb_in_version_1.asm
; Word, line 21: ATOMB
;                ^^^^^
; ATOMB is an instruction of version 2: the text has to begin with the line `version 2`.
; Word, line 25: ATOME
;                ^^^^^
; ATOME is an instruction of version 2: the text has to begin with the line `version 2`.
; status 1: asm: line 21 Word
; $ x10p asm --explain atomb_in_version_1.asm atomb.x10
; status 1: asm: line 21 Word
; > atomb_in_version_1.asm:21:1: Word: ATOMB
; >                                    ^^^^^
; > ATOMB is an instruction of version 2: the text has to begin with the line `version 2`.
places 1
class int
int 1
func 3 0 none obj:0
INTK 1 0
ATOMB
GET 2 0 0
ADD 2 2 1
PUT 0 2 0
ATOME
RET 0
end
func 1 0 none
RET 0
end
entry 1

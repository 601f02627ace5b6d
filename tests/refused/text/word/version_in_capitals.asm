; The word is `version`.
;
; $ x10p asm version_in_capitals.asm version.x10
; status 1: asm: line 5 Word
VERSION 2

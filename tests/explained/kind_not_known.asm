; A word that is no kind, and near to none.
;
; $ x10p asm --explain kind_not_known.asm kind_not_known.x10
; status 1: asm: line 10 Word
; > kind_not_known.asm:10:15: Word: func 1 0 none string
; >                                               ^^^^^^
; > `string` isn't a kind; this word is the kind of a parameter.
; > Kinds are int, place, text, rail, obj:c, opt:c, gref:c and here:c, where c is the number of a class.
places 1
func 1 0 none string
RET 0
end
func 1 0 none
RET 0
end
entry 1

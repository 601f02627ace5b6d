; A word that is no kind, among kinds: the mark stands beneath it.
;
; $ x10p asm --explain kind_in_a_class.asm kind_in_a_class.x10
; status 1: asm: line 10 Word
; > kind_in_a_class.asm:10:11: Word: class int integer place
; >                                            ^^^^^^^
; > `integer` isn't a kind. Did you mean int?
places 1
class int place
class int integer place
int 7
func 1 0 none
INTK 0 0
PRINT 0
RET 0
end
entry 0

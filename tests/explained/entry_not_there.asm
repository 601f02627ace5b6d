; An entry that isn't there.
;
; $ x10p asm --explain entry_not_there.asm entry_not_there.x10
; status 1: asm: line 12 Entry
; > entry_not_there.asm:12:7: Entry: entry 1
; >                                        ^
; > There is no function 1: the text has 1 function, number 0.
places 1
func 1 0 none
RET 0
end
entry 1

; Words that the program doesn't understand: unknown ones, too few, too many, and numbers outside
; their ranges. The library that reads the words tells what is wrong with them.
;
; $ x10p
; status 3
; $ x10p walk not_understood.x10
; status 3
; $ x10p run
; status 3
; $ x10p verify
; status 3
; $ x10p asm not_understood.asm
; status 3
; $ x10p run not_understood.x10 again.x10
; status 3
; $ x10p verify not_understood.x10 --places 1
; status 3
; $ x10p run not_understood.x10 --places 0
; status 3
; $ x10p run not_understood.x10 --places 65
; status 3
; $ x10p run not_understood.x10 --places x
; status 3
; $ x10p run not_understood.x10 --limit 0
; status 3
; $ x10p run not_understood.x10 --limit 1000000001
; status 3
; $ x10p run not_understood.x10 --walk
; status 3
places 1
func 1 0 none
RET 0
end
entry 0

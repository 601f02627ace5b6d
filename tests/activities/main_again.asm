; ASYNC may name the entry function too: main starts main, and so on for ever.
;
; $ x10p bounds main_again.x10
; 0 4
; $ x10p run main_again.x10 --limit 12
; 0: 1
; 0: 1
; 0: 1
; status 2: limit
places 1
int 1
func 1 0 none
  INTK 0 0
  PRINT 0
  ASYNC 0 0
  RET 0
end
entry 0

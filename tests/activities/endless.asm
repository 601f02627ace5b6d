; An activity that starts one of its own function before it ends, and so on for ever. Each takes two steps at most, and
; the finish around them is never closed; the run ends at the limit.
;
; $ x10p bounds endless.x10
; 0 2
; 1 7
; $ x10p run endless.x10 --limit 100
; 0: 1
; status 2: limit
; $ x10p run endless.x10 --limit 20000
; 0: 1
; status 2: limit
places 1
int 1
func 1 0 none
  ASYNC 0 0
  RET 0
end
; main
func 1 0 none
  INTK 0 0
  PRINT 0
  FINB
  ASYNC 0 0
  FINE
  PRINT 0
  RET 0
end
entry 1

; A finish that isn't closed within the limit, as its activity makes billions of turns. The activity's bound says how
; many steps it takes at most; that a run ends within a limit isn't promised.
;
; $ x10p bounds never_closed.x10
; 0 4294967297
; 1 8
; $ x10p run never_closed.x10 --limit 20000
; 0: 1
; status 2: limit
places 1
int 1
int 2
func 1 2 none
  LOOP 0 65535
outer:
  LOOP 1 65535
inner:
  ENDL 1 @inner
  ENDL 0 @outer
  RET 0
end
; main
func 1 0 none
  INTK 0 0
  PRINT 0
  FINB
  ASYNC 0 0
  FINE
  INTK 0 1
  PRINT 0
  RET 0
end
entry 1

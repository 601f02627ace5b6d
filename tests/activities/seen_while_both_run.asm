; What one activity writes another one sees while both are at work: the first asks a byte again and again until the
; second, which takes 100 turns, has set it. It prints 1 where the byte came to be set, and would print 2 after 1,000
; turns.
;
; $ x10p bounds seen_while_both_run.x10
; 0 4005
; 1 105
; 2 5
; $ x10p run seen_while_both_run.x10
; 0: 1
; takes 222 events
places 1
int 0
int 1
int 2
func 3 1 none rail
  INTK 1 0
  LOOP 0 1000
ask:
  RGET 2 0 1 @out
  JZ 2 @again
  JMP @set
again:
  ENDL 0 @ask
  INTK 2 2
set:
  PRINT 2
out:
  RET 0
end
; sets the byte, later
func 3 1 none rail
  INTK 1 0
  INTK 2 1
  LOOP 0 100
wait:
  ENDL 0 @wait
  RSET 0 1 2 @out
out:
  RET 0
end
; main
func 2 0 none
  INTK 1 1
  RAIL 0 1 @out
  ASYNC 0 0
  ASYNC 0 1
out:
  RET 0
end
entry 2

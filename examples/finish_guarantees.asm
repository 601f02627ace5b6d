; What `finish` guarantees, and what it doesn't need to know. Main starts one activity, `first`. That one starts
; `second` and ends at once; `second` starts `third` and ends at once; and `third`, which nobody of main's own has
; started, works a while and puts 7 into the rail. Behind FINE the 7 is there, because FINE waits for all that was
; started in the finish, by whomever, and not only for those that main has started itself.
;
; Before FINE main reads the rail too. It finds 0 here, and another order of the steps could give 7: nothing is
; guaranteed there.
;
; $ x10p run finish_guarantees.x10
; 0: 0
; 0: 7
places 1
int 1
int 0
int 7
; third: forty turns, and then the 7
func 3 1 none rail
  INTK 1 1
  INTK 2 2
  LOOP 0 40
turn:
  ENDL 0 @turn
  RSET 0 1 2 @out
out:
  RET 0
end
; second
func 1 0 none rail
  ASYNC 0 0
  RET 0
end
; first
func 1 0 none rail
  ASYNC 0 1
  RET 0
end
; main
func 4 0 none
  INTK 1 0
  RAIL 0 1 @out
  INTK 1 1
  FINB
  ASYNC 0 2
  RGET 2 0 1 @fine
  PRINT 2
fine:
  FINE
  RGET 2 0 1 @out
  PRINT 2
out:
  RET 0
end
entry 3

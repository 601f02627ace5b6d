; An activity that starts one of its own function before it ends, and so on for ever. The run ends at the limit, which
; counts turns of workers, and what main printed is told; the turns are of one place, so that no schedule matters.
;
; $ x10p run endless.x10 --threads --limit 100
; 0: 1
; status 2: turns
; $ x10p run endless.x10 --threads --limit 2000 --explain
; 0: 1
; status 2: turns
; > --limit permits 2000 turns of workers, and a worker had one more. In a turn a worker takes in 16 frames and makes 64 steps at most.
; > With --log LOG it is told too who lives after the turns in the log.
; $ x10p run endless.x10 --limit 100
; 0: 1
; status 2: limit
places 1
int 1
func 1 0 none
  ASYNC 0 0
  RET 0
end
; main
func 1 0 none
  INTK 0 0
  PRINT 0
  ASYNC 0 0
  RET 0
end
entry 1

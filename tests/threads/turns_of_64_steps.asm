; A worker's turn makes at most 64 steps. Main takes 195, which are four turns: 4 up to the loop, 3 each time round it,
; and 2 behind it. After three turns the run isn't over, and of main's lines the first was posted.
;
; $ x10p run turns_of_64_steps.x10 --threads --limit 4
; 0: 1
; 0: 64
; $ x10p run turns_of_64_steps.x10 --threads --limit 3
; 0: 1
; status 2: turns
; $ x10p run turns_of_64_steps.x10
; 0: 1
; 0: 64
; takes 195 events
places 1
int 1
func 2 1 none
  INTK 0 0
  INTK 1 0
  PRINT 0
  LOOP 0 63
again:
  ADD 0 0 1
  JMP @on
on:
  ENDL 0 @again
  PRINT 0
  RET 0
end
entry 0

; A turn ends with a region: its ATOME is right before the ENDL. A jump to the ENDL from before the region leaves it out,
; and a jump to the ATOMB goes into it as falling through does. From inside a jump may go to the ATOME, and no farther.
; Of the numbers 1 to 6 those that 3 divides are left out, and of the others only those above 2 are printed.
;
; $ x10p bounds ends_a_turn.x10
; 0 71
; $ x10p run ends_a_turn.x10
; 0: 4
; 0: 5
version 2
places 1
int 0
int 1
int 3
int 2
func 6 1 none
  INTK 0 0
  INTK 1 1
  INTK 2 2
  LOOP 0 6
turn:
  ADD 0 0 1
  REM 3 0 2 @next
  JZ 3 @next
  JMP @region
region:
  ATOMB
  INTK 4 3
  LT 5 4 0
  JZ 5 @out
  PRINT 0
out:
  ATOME
next:
  ENDL 0 @turn
  RET 0
end
entry 0

; Counted loops. LOOP puts a count into a loop slot, and ENDL takes 1 from it and goes back to the
; loop's beginning while something is left. A loop within a loop has the next slot, and begins
; anew each time that it is reached. The counts stand in the code, so `x10p bounds` knows before
; the run that function 0 takes 70 steps.
;
; $ x10p bounds loops.x10
; 0 70
; $ x10p run loops.x10
; 0: 3628800
; 0: 1
; 0: 2
; 0: 3
; 0: 2
; 0: 4
; 0: 6
places 1
int 0
int 1
func 4 2 none
  INTK 3 1
; the product of 1 to 10
  INTK 0 0
  INTK 1 1
  LOOP 0 10
factor:
  ADD 0 0 3
  MUL 1 1 0
  ENDL 0 @factor
  PRINT 1
; a table: the products of 1 to 2 and 1 to 3
  INTK 0 0
  LOOP 0 2
row:
  ADD 0 0 3
  INTK 1 0
  LOOP 1 3
column:
  ADD 1 1 3
  MUL 2 0 1
  PRINT 2
  ENDL 1 @column
  ENDL 0 @row
  RET 0
end
entry 0

; An activity comes back from place 1 while another one is inside a region at place 0. The frame is taken in at once, and
; the activity goes on after the ATOME.
;
; $ x10p run comes_back.x10
; 0: 1
; 0: 1
; 0: 1
; 0: 1
; 0: 1
; 0: 7
version 2
places 2
int 1
int 7
func 1 0 int
  INTK 0 1
  RET 0
end
func 1 1 none
  ATOMB
  INTK 0 0
  LOOP 0 5
again:
  PRINT 0
  ENDL 0 @again
  ATOME
  RET 0
end
func 2 0 none
  PLACEK 1 1
  ASYNC 0 1
  AT 0 0 1 0
  PRINT 0
  RET 0
end
entry 2

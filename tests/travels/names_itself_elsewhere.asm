; An object that names itself is sent to place 1 and comes back, and names itself at both.
;
; $ x10p bounds names_itself_elsewhere.x10
; 0 7
; 1 20
; $ x10p run names_itself_elsewhere.x10
; 0: 7
; 1: 6
; takes 29 events
places 2
class int opt:0
int 6
int 1
int 7
; sets the number of what the object names
func 4 0 obj:0 obj:0
  GET 1 0 1
  IFOBJ 2 1 @out
  INTK 3 0
  PUT 2 3 0
  GET 3 0 0
  PRINT 3
out:
  RET 0
end
; main
func 5 0 none
  INTK 0 1
  NULL 1 0
  NEW 2 0 0
  PUT 2 2 1
  PLACEK 3 1
  AT 2 2 3 0
  GET 1 2 1
  IFOBJ 4 1 @out
  INTK 0 2
  PUT 4 0 0
  GET 0 2 0
  PRINT 0
out:
  RET 0
end
entry 1

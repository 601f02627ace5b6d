; IFHERE goes on where its register is this place, and else goes to its label.
;
; $ x10p bounds here_or_elsewhere.x10
; 0 7
; 1 28
; $ x10p run here_or_elsewhere.x10
; 0: 1
; 0: 2
; 0: 1
; takes 19 events
; $ x10p run here_or_elsewhere.x10 --places 3
; 0: 1
; 0: 2
; 0: 2
; takes 19 events
places 2
int 1
int 2
func 3 0 none place
  IFHERE 0 @elsewhere
  INTK 1 0
  PRINT 1
  RET 0
elsewhere:
  INTK 1 1
  PRINT 1
  RET 0
end
func 3 0 none
  HERE 0
  CALL 0 0 0
  PLACEK 0 1
  CALL 0 0 0
  NEXTP 0 0
  CALL 0 0 0
  RET 0
end
entry 1

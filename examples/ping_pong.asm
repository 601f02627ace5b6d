; Ping and pong. Main goes to place 1 and back, three times. AT takes a copy of the number along, the function at
; place 1 prints it and gives back the next one, and main goes on at place 0 when it is there. While it is away,
; main's stay at place 0 waits: it is one activity, which works at one place at a time.
;
; $ x10p run ping_pong.x10
; 0: 1
; 0: 3
; 0: 5
; 1: 2
; 1: 4
; 1: 6
; takes 47 events
places 2
int 1
; prints the number, and gives the next
func 2 0 int int
  PRINT 0
  INTK 1 0
  ADD 0 0 1
  RET 0
end
; main
func 4 1 none
  INTK 0 0
  INTK 1 0
  PLACEK 2 1
  LOOP 0 3
again:
  PRINT 0
  ADD 0 0 1
  AT 0 0 2 0
  ENDL 0 @again
  RET 0
end
entry 1

; Fan out and fan in. Main starts eight activities, two at each of four places, and FINE is where they come together.
; An activity that ATA starts gives nothing back. So each is handed a global reference to an object at place 0 that
; has a rail, and goes to its home by AT when it is done, to put its number there.
;
; Two activities that count up one number at the same time lose updates, since one may read the number before the
; other has written it (`shared_counter.asm` has a region against it). Here nobody writes where another one does: the
; rail has a byte for each of them.
;
; $ x10p run fan_out.x10
; 0: 0
; 0: 1
; 0: 4
; 0: 9
; 0: 0
; 0: 5
; 0: 12
; 0: 21
; takes 218 events
places 4
class rail
int 8
int 0
int 1
; puts a number into a byte of the rail, which is here
func 5 0 none here:0 int int
  GOPEN 3 0
  GET 4 3 0
  RSET 4 1 2 @out
out:
  RET 0
end
; its result is its own number times its place's number
func 5 0 none gref:0 int
  HERE 3
  PLACEI 2 3
  MUL 2 1 2
  HOME 4 0
  AT 0 0 4 0
  RET 0
end
; main
func 9 1 none
  INTK 3 0
  RAIL 4 3 @out
  NEW 5 4 0
  GNEW 0 5
  INTK 1 1
  INTK 6 2
  HERE 7
  FINB
  LOOP 0 8
start:
  ATA 0 7 1
  ADD 1 1 6
  NEXTP 7 7
  ENDL 0 @start
  FINE
; all bytes are there: print them
  INTK 1 1
  LOOP 0 8
show:
  RGET 8 4 1 @out
  PRINT 8
  ADD 1 1 6
  ENDL 0 @show
out:
  RET 0
end
entry 2

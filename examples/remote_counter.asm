; A counter at place 0 that is counted up from place 1. The client has a global reference to it. A global reference
; can be sent anywhere, and opened only at its home: for GOPEN the verifier has to know that its home is here. So the
; client asks for the home by HOME, and goes there by AT: then the verifier knows that the home of the reference is
; the place that AT goes to. `counter_refused.asm` leaves this out.
;
; One client counts here. Two at the same time would lose updates: one may read the counter before the other has
; written it. An atomic region around GET, ADD and PUT prevents that: see `shared_counter.asm`.
;
; $ x10p run remote_counter.x10
; 0: 3
; 1: 1
; 1: 2
; 1: 3
; takes 89 events
places 2
class int
int 1
int 0
; adds 1 to the counter, and gives the sum. The flag `here` asks that the counter's home is this place
func 4 0 int here:0
  GOPEN 1 0
  GET 2 1 0
  INTK 3 0
  ADD 2 2 3
  PUT 1 2 0
  RET 2
end
; runs at place 1
func 3 1 none gref:0
  HOME 1 0
  LOOP 0 3
again:
  AT 2 0 1 0
  PRINT 2
  ENDL 0 @again
  RET 0
end
; main
func 4 0 none
  INTK 0 1
  NEW 1 0 0
  GNEW 2 1
  PLACEK 3 1
  FINB
  ATA 2 3 1
  FINE
  GET 0 1 0
  PRINT 0
  RET 0
end
entry 2

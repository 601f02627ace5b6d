; Hello from each place. ATA starts an activity at the place that a register holds, and goes on at once. What an
; activity prints is a line of the place where it runs. The finish waits for all that was started in it, also for what
; those started: without it main's own line could come first.
;
; COUNT says how many places there are, but a loop needs a number that is known before the run. So the activity that
; greets starts the greeting of the next place, until that is the first one again. The same program runs at any number
; of places.
;
; $ x10p run hello.x10
; 0: hello from place
; 0: 0
; 0: all have greeted
; takes 24 events
; $ x10p run hello.x10 --places 4
; 0: hello from place
; 0: 0
; 0: all have greeted
; 1: hello from place
; 1: 1
; 2: hello from place
; 2: 2
; 3: hello from place
; 3: 3
; takes 78 events
places 1
text "hello from place"
text "all have greeted"
; prints the place's number, and starts the next greeting where that isn't the first place again
func 4 0 none place
  HERE 1
  PLACEI 2 1
  TEXTK 3 0
  PRINT 3
  PRINT 2
  NEXTP 1 1
  IFSAME 0 1 @on
  RET 0
on:
  ATA 0 1 0
  RET 0
end
; main
func 1 0 none
  HERE 0
  FINB
  ATA 0 0 0
  FINE
  TEXTK 0 1
  PRINT 0
  RET 0
end
entry 1

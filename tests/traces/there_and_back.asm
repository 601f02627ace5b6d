; The trace of an AT: while the stay of main is away its step is idle. The message that begins the stay at place 1 has number
; 0, the result that comes back number 1, and the report 2.
;
; $ x10p trace there_and_back.x10
; S 0 0 1 0 FINB
; S 0 0 1 1 PLACEK
; S 0 0 1 2 AT
; P 0 0 1 0202000000010000000000000000000100000000000000000000000000000000
; D 0 1
; S 1 0 0 0 INTK
; - 0 0
; S 1 0 0 1 RET
; P 1 1 0 020300010000000000000001000000000000000000000000010000000000000007
; P 2 1 0 02040001000000000001000200000000000000000000000100000000
; D 1 0
; D 2 0
; S 0 0 1 3 FINE
; S 0 0 1 4 PRINT
; S 0 0 1 5 RET
; $ x10p run there_and_back.x10
; 0: 7
; takes 12 events
places 2
int 7
func 1 0 int
  INTK 0 0
  RET 0
end
func 2 0 none
  FINB
  PLACEK 1 1
  AT 0 0 1 0
  FINE
  PRINT 0
  RET 0
end
entry 1

; A run that ends at the limit of events: the limit, how many steps main takes at most, and who lives then.
;
; $ x10p run --explain limit.x10 --limit 2
; 0: 7
; status 2: limit
; > --limit permits 2 events, and after that the root finish was open. Main takes 3 steps at most; the steps of all other activities count too, and deliveries and idle events.
; > Idle events: 0 of 2.
; > Who lives then:
; >   main at place 0: function 0, instruction 2 (RET)
; > Activities that can move: 1 of 1.
; $ x10p trace --explain limit.x10 --limit 1
; S 0 0 0 0 INTK
; status 2: limit
; > --limit permits 1 event, and after that the root finish was open. Main takes 3 steps at most; the steps of all other activities count too, and deliveries and idle events.
; > Idle events: 0 of 1.
; > Who lives then:
; >   main at place 0: function 0, instruction 1 (PRINT)
; > Activities that can move: 1 of 1.
; $ x10p run --explain limit.x10
; 0: 7
places 1
int 7
func 1 0 none
INTK 0 0
PRINT 0
RET 0
end
entry 0

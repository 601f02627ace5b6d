; A run that ends at the limit of events, while an activity is inside an atomic region: it alone can move. The other two of its
; place wait for it, whatever instruction they stand at.
;
; $ x10p run --explain limit_kept_out.x10 --limit 9
; status 2: limit
; > --limit permits 9 events, and after that the root finish was open. Main takes 5 steps at most; the steps of all other activities count too, and deliveries and idle events.
; > Idle events: 3 of 9.
; > Who lives then:
; >   main at place 0: function 2, instruction 3 (FINE), kept out by an atomic region, in finish 1 of place 0; at place 0 live 2
; >   f1 at place 0, key 1: function 1, instruction 3 (HERE)
; >   f0 at place 0, key 2: function 0, instruction 0 (HERE), kept out by an atomic region
; > Activities that can move: 1 of 3.
version 2
places 1
func 1 0 none
HERE 0
HERE 0
RET 0
end
func 1 0 none
ATOMB
HERE 0
HERE 0
HERE 0
ATOME
RET 0
end
func 1 0 none
FINB
ASYNC 0 1
ASYNC 0 0
FINE
RET 0
end
entry 2

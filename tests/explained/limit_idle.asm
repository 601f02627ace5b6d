; A run that ends at the limit of events, where half of them are idle: main waits for its finish while an activity works. By a
; schedule other than rounds there are none.
;
; $ x10p run --explain limit_idle.x10 --limit 20
; status 2: limit
; > --limit permits 20 events, and after that the root finish was open. Main takes 4 steps at most; the steps of all other activities count too, and deliveries and idle events.
; > Idle events: 9 of 20.
; > Who lives then:
; >   main at place 0: function 1, instruction 2 (FINE), waits for finish 1 of place 0; at place 0 live 1
; >   f0 at place 0, key 1: function 0, instruction 1 (HERE)
; > Activities that can move: 1 of 2.
; $ x10p run --explain limit_idle.x10 --limit 20 --schedule oldest
; status 2: limit
; > --limit permits 20 events, and after that the root finish was open. Main takes 4 steps at most; the steps of all other activities count too, and deliveries and idle events.
; > Idle events: 0 of 20.
; > Who lives then:
; >   main at place 0: function 1, instruction 2 (FINE), waits for finish 1 of place 0; at place 0 live 1
; >   f0 at place 0, key 1: function 0, instruction 2 (ENDL)
; > Activities that can move: 1 of 2.
places 1
func 1 1 none
LOOP 0 1000
HERE 0
ENDL 0 1
RET 0
end
func 1 0 none
FINB
ASYNC 0 0
FINE
RET 0
end
entry 1

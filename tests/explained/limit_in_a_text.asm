; A run of a text that ends at the limit of events: who lives then is told with the line of the text too, where labels, comments and
; empty lines are no instructions.
;
; $ x10p run --explain limit_in_a_text.asm --limit 20
; status 2: limit
; > --limit permits 20 events, and after that the root finish was open. Main takes 4 steps at most; the steps of all other activities count too, and deliveries and idle events.
; > Idle events: 9 of 20.
; > Who lives then:
; >   main at place 0: function 1, instruction 2 (FINE), line 32, waits for finish 1 of place 0; at place 0 live 1
; >   f0 at place 0, key 1: function 0, instruction 1 (HERE), line 21
; > Activities that can move: 1 of 2.
places 1

; works alone
func 1 1 none
  LOOP 0 1000

again:
  ; the place, each time

  HERE 0
  ENDL 0 @again
  RET 0
end

; main
func 1 0 none
  FINB
  ASYNC 0 0
wait:

  FINE
  RET 0
end
entry 1

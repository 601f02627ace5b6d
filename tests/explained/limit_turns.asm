; A run with threads that ends at the limit of turns. Where it is logged, it is told who lives after the turns in the log. In the one
; turn main makes 64 steps: LOOP, and then HERE and ENDL in turns, so that an ENDL comes next.
;
; $ x10p run --explain limit_turns.x10 --threads --limit 1 --log limit_turns.log
; status 2: turns
; > --limit permits 1 turn of workers, and a worker had one more. In a turn a worker takes in 16 frames and makes 64 steps at most.
; > Who lives after the turns in the log:
; >   main at place 0: function 0, instruction 2 (ENDL)
; > Activities that can move: 1 of 1.
; $ x10p run --explain limit_turns.asm --threads --limit 2 --log limit_turns.log
; status 2: turns
; > --limit permits 2 turns of workers, and a worker had one more. In a turn a worker takes in 16 frames and makes 64 steps at most.
; > Who lives after the turns in the log:
; >   main at place 0: function 0, instruction 2 (ENDL), line 26
; > Activities that can move: 1 of 1.
; $ x10p run limit_turns.x10 --threads --limit 1 --log limit_turns.log --explain=no
; status 2: turns
; $ x10p run --explain limit_turns.x10 --threads --limit 1
; status 2: turns
; > --limit permits 1 turn of workers, and a worker had one more. In a turn a worker takes in 16 frames and makes 64 steps at most.
; > With --log LOG it is told too who lives after the turns in the log.
places 1
func 1 1 none
LOOP 0 1000
HERE 0
ENDL 0 1
RET 0
end
entry 0

; The primes below 100 by the sieve of Eratosthenes. A rail is a row of bytes that are 0 at first;
; here byte n becomes 1 once n is known to be a product. RAIL, RGET and RSET check each length and
; each index: where there is no such byte they go to their label, and no byte is touched. So the
; inner loop needs no comparison: it is left at the first multiple past the last byte. The bound
; takes all turns of a loop in a loop as made, 98 times 49 of them: 15,196 steps, where this run
; takes 877.
;
; $ x10p bounds sieve.x10
; 0 15196
; $ x10p run sieve.x10
; 0: 2
; 0: 3
; 0: 5
; 0: 7
; 0: 11
; 0: 13
; 0: 17
; 0: 19
; 0: 23
; 0: 29
; 0: 31
; 0: 37
; 0: 41
; 0: 43
; 0: 47
; 0: 53
; 0: 59
; 0: 61
; 0: 67
; 0: 71
; 0: 73
; 0: 79
; 0: 83
; 0: 89
; 0: 97
; takes 877 events
places 1
int 100
int 1
int 2
func 5 2 none
  INTK 0 0
  RAIL 1 0 @done
  INTK 0 1
  INTK 2 2
; register 2 is each number from 2 on
  LOOP 0 98
number:
  RGET 3 1 2 @done
  JZ 3 @prime
  JMP @next
prime:
  PRINT 2
; register 4 is each multiple of the prime, from its square on
  MUL 4 2 2
  LOOP 1 49
multiple:
  RSET 1 4 0 @next
  ADD 4 4 2
  ENDL 1 @multiple
next:
  ADD 2 2 0
  ENDL 0 @number
done:
  RET 0
end
entry 0

; What the verifier accepts of ASYNC, FINB and FINE, a function for each: beside each of these stands what it refuses,
; in tests/refused.
;
; $ x10p verify activities.x10
; verified 12 functions, entry bound 1
places 1
class int
int 7
; 0: what the others start
func 2 0 none int opt:0
  RET 0
end
; 1: an object where null may be
func 2 0 none int obj:0
  ASYNC 0 0
  RET 0
end
; 2: the registers stay as they were, kinds and homes, also after FINB and FINE
func 4 0 none int obj:0 here:0
  FINB
  ASYNC 0 0
  GOPEN 3 2
  ASYNC 2 3
  FINE
  GET 0 3 0
  GOPEN 3 2
  ASYNC 0 0
  RET 0
end
; 3: a reference whose home is here
func 1 0 none here:0
  RET 0
end
; 4: for which it is made here
func 2 0 none obj:0
  GNEW 1 0
  ASYNC 1 3
  RET 0
end
; 5: or IFHERE has told, in a finish too
func 1 0 none gref:0
  IFHERE 0 @out
  FINB
  ASYNC 0 3
  FINE
out:
  RET 0
end
; 6: ASYNC of its own function, and of one that stands below
func 1 0 none
  ASYNC 0 6
  ASYNC 0 9
  RET 0
end
; 7: jumps over a finish, to the FINE of the one in which they stand, and out of a loop there
func 1 1 none int
  JZ 0 @over
  FINB
  LOOP 0 2
again:
  JZ 0 @close
  ENDL 0 @again
  JZ 0 @close
  FINB
  FINE
close:
  FINE
over:
  RET 0
end
; 8: RET in a loop, beside a finish
func 1 1 none int
  LOOP 0 2
again:
  FINB
  FINE
  RET 0
  ENDL 0 @again
  RET 0
end
; 9: no way leads to the ASYNC of unset registers
func 2 0 none
  RET 0
  ASYNC 0 0
  RET 0
end
; 10: a finish in a loop and a loop in a finish: slots count loops alone
func 1 2 none
  LOOP 0 2
outer:
  FINB
  LOOP 1 2
inner:
  ENDL 1 @inner
  FINE
  ENDL 0 @outer
  RET 0
end
; main
func 1 0 none
  RET 0
end
entry 11

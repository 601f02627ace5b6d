; What the verifier accepts, a function for each.
;
; $ x10p verify accepted.x10
; verified 10 functions, entry bound 1
places 1
class
int 7
; sums and differences of registers that are set
func 2 0 none int
  ADD 1 0 0
  ADD 1 0 1
  RET 0
end
func 2 0 none int
  SUB 1 0 0
  SUB 1 0 1
  RET 0
end
func 2 0 none int
  MUL 1 0 0
  MUL 1 0 1
  RET 0
end
; no way leads to the ADD of an unset register
func 2 0 none int
  RET 0
  ADD 1 1 1
  RET 0
end
; a text can be printed
func 2 0 none text
  PRINT 0
  RET 0
end
; an object where an object or null is promised
func 2 0 opt:0 obj:0
  RET 0
end
; a result
func 2 0 int int
  INTK 1 0
  RET 1
end
; a reference whose home is here
func 2 0 here:0 here:0
  RET 0
end
; and one whose home is here where nothing is promised of it
func 2 0 gref:0 here:0
  RET 0
end
; main
func 1 0 none
  RET 0
end
entry 9

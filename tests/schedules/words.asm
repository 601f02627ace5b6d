; What the command line takes: a seed only for a random order, and neither with threads.
;
; $ x10p run words.x10 --schedule random --seed 18446744073709551615
; 0: 7
; $ x10p run words.x10 --schedule random
; 0: 7
; $ x10p run words.x10 --schedule oldest --seed 1
; status 3
; $ x10p run words.x10 --schedule fastest
; status 3
; $ x10p run words.x10 --seed -1
; status 3
; $ x10p run words.x10 --seed 18446744073709551616
; status 3
; $ x10p run words.x10 --threads --seed 1
; status 3
; $ x10p run words.x10 --threads --schedule rounds
; status 3
; $ x10p verify words.x10 --seed 1
; status 3
places 1
int 7
func 1 0 none
  INTK 0 0
  PRINT 0
  RET 0
end
entry 0

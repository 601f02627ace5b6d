; A run in which there is a frame of each type: an activity is started at place 1, and main goes there and comes back. Main is
; idle once, while it is away. By its head, its roots and its sizes a Spawn has 28 bytes, a Shift 32, a Back 24, and 9 more for a
; number that is passed; a Report of two places 28.
;
; $ x10p run frames.x10 --stats
; 0: 5
; > steps:                    9
; > idle events:              1
; > deliveries:               5
; > rounds:                   7
; > most stays at one time:   2
; > Spawn frames:             1
; > Spawn bytes:              28
; > Shift frames:             1
; > Shift bytes:              41
; > Back frames:              1
; > Back bytes:               33
; > Report frames:            2
; > Report bytes:             56
; > function 0, activities:   1, most steps: 1, bound: 1
; > function 2, activities:   1, most steps: 8, bound: 8
; > place 0, objects:         0
; > place 0, rails:           0
; > place 0, texts:           0
; > place 0, exports:         0
; > place 1, objects:         1
; > place 1, rails:           0
; > place 1, texts:           0
; > place 1, exports:         0
;
; At the limit it is told what there was until then.
;
; $ x10p run frames.x10 --stats --limit 6
; status 2: limit
; > steps:                    4
; > idle events:              0
; > deliveries:               2
; > rounds:                   4
; > most stays at one time:   2
; > Spawn frames:             1
; > Spawn bytes:              28
; > Shift frames:             0
; > Shift bytes:              0
; > Back frames:              0
; > Back bytes:               0
; > Report frames:            1
; > Report bytes:             28
; > function 0, activities:   1, most steps: 1, bound: 1
; > function 2, activities:   1, most steps: 3, bound: 8
; > place 0, objects:         0
; > place 0, rails:           0
; > place 0, texts:           0
; > place 0, exports:         0
; > place 1, objects:         0
; > place 1, rails:           0
; > place 1, texts:           0
; > place 1, exports:         0
;
; The fault and its explanation come first.
;
; $ x10p run frames.x10 --stats --limit 1 --explain
; status 2: limit
; > --limit permits 1 event, and after that the root finish was open. Main takes 8 steps at most; the steps of all other activities count too, and deliveries and idle events.
; > Idle events: 0 of 1.
; > Who lives then:
; >   main at place 0: function 2, instruction 1 (PLACEK)
; > Activities that can move: 1 of 1.
; > steps:                    1
; > idle events:              0
; > deliveries:               0
; > rounds:                   1
; > most stays at one time:   1
; > Spawn frames:             0
; > Spawn bytes:              0
; > Shift frames:             0
; > Shift bytes:              0
; > Back frames:              0
; > Back bytes:               0
; > Report frames:            0
; > Report bytes:             0
; > function 2, activities:   1, most steps: 1, bound: 8
; > place 0, objects:         0
; > place 0, rails:           0
; > place 0, texts:           0
; > place 0, exports:         0
; > place 1, objects:         0
; > place 1, rails:           0
; > place 1, texts:           0
; > place 1, exports:         0
places 2
class int
int 5
func 1 0 none
  RET 0
end
func 3 0 int int
  NEW 1 0 0
  RET 0
end
func 3 0 none
  INTK 0 0
  PLACEK 1 1
  ATA 0 1 0
  AT 2 0 1 1
  PRINT 2
  RET 0
end
entry 2

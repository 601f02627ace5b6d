; What was in a run at one place: main makes an object that a global reference names, and waits one round for an activity.
;
; $ x10p run one_place.x10 --stats
; 0: 7
; > steps:                    9
; > idle events:              1
; > deliveries:               0
; > rounds:                   9
; > most stays at one time:   2
; > Spawn frames:             0
; > Spawn bytes:              0
; > Shift frames:             0
; > Shift bytes:              0
; > Back frames:              0
; > Back bytes:               0
; > Report frames:            0
; > Report bytes:             0
; > function 0, activities:   1, most steps: 1, bound: 1
; > function 1, activities:   1, most steps: 8, bound: 8
; > place 0, objects:         1
; > place 0, rails:           0
; > place 0, texts:           0
; > place 0, exports:         1
;
; $ x10p run one_place.x10 --stats --limit 5 --explain=no
; 0: 7
; status 2: limit
; > steps:                    5
; > idle events:              0
; > deliveries:               0
; > rounds:                   5
; > most stays at one time:   1
; > Spawn frames:             0
; > Spawn bytes:              0
; > Shift frames:             0
; > Shift bytes:              0
; > Back frames:              0
; > Back bytes:               0
; > Report frames:            0
; > Report bytes:             0
; > function 1, activities:   1, most steps: 5, bound: 8
; > place 0, objects:         1
; > place 0, rails:           0
; > place 0, texts:           0
; > place 0, exports:         1
;
; No schedule but rounds makes idle events.
;
; $ x10p run one_place.x10 --stats --schedule oldest --json
; {"place":0,"number":7}
; > steps:                    9
; > idle events:              0
; > deliveries:               0
; > rounds:                   8
; > most stays at one time:   2
; > Spawn frames:             0
; > Spawn bytes:              0
; > Shift frames:             0
; > Shift bytes:              0
; > Back frames:              0
; > Back bytes:               0
; > Report frames:            0
; > Report bytes:             0
; > function 0, activities:   1, most steps: 1, bound: 1
; > function 1, activities:   1, most steps: 8, bound: 8
; > place 0, objects:         1
; > place 0, rails:           0
; > place 0, texts:           0
; > place 0, exports:         1
places 1
class int
int 7
func 1 0 none
  RET 0
end
func 3 0 none
  INTK 0 0
  PRINT 0
  NEW 1 0 0
  GNEW 2 1
  FINB
  ASYNC 0 0
  FINE
  RET 0
end
entry 1

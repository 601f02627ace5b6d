; How many steps activities make, beside the bounds of the functions with which they began. Function 0 makes 11 steps, and one for
; each unit of its argument up to 4: the activity here makes 12, and the one at place 1 makes 14. Main makes 13, which is its
; bound: 8 of its own, 3 at place 1, and 2 back at place 0, where it goes from there.
;
; $ x10p run activities.x10 --stats --verbose
; 0: 3
; > steps:                    39
; > idle events:              4
; > deliveries:               6
; > rounds:                   19
; > most stays at one time:   5
; > Spawn frames:             1
; > Spawn bytes:              37
; > Shift frames:             2
; > Shift bytes:              64
; > Back frames:              2
; > Back bytes:               66
; > Report frames:            1
; > Report bytes:             28
; > function 0, activities:   2, most steps: 14, bound: 15
; > function 3, activities:   1, most steps: 13, bound: 13
; > activity 0, function 3, place 0, steps: 13, bound: 13
; > activity 1, function 0, place 0, steps: 12, bound: 15
; > activity 2, function 0, place 1, steps: 14, bound: 15
; > place 0, objects:         0
; > place 0, rails:           0
; > place 0, texts:           0
; > place 0, exports:         0
; > place 1, objects:         0
; > place 1, rails:           0
; > place 1, texts:           0
; > place 1, exports:         0
;
; At the limit main is at place 0 again, in its third stay, for which the other two wait: its steps go along. Those of the other
; two are told too, until then.
;
; $ x10p run activities.x10 --stats --verbose --limit 25
; status 2: limit
; > steps:                    19
; > idle events:              3
; > deliveries:               3
; > rounds:                   8
; > most stays at one time:   5
; > Spawn frames:             1
; > Spawn bytes:              37
; > Shift frames:             2
; > Shift bytes:              64
; > Back frames:              0
; > Back bytes:               0
; > Report frames:            0
; > Report bytes:             0
; > function 0, activities:   2, most steps: 6, bound: 15
; > function 3, activities:   1, most steps: 9, bound: 13
; > activity 0, function 3, place 0, steps: 9, bound: 13
; > activity 1, function 0, place 0, steps: 6, bound: 15
; > activity 2, function 0, place 1, steps: 4, bound: 15
; > place 0, objects:         0
; > place 0, rails:           0
; > place 0, texts:           0
; > place 0, exports:         0
; > place 1, objects:         0
; > place 1, rails:           0
; > place 1, texts:           0
; > place 1, exports:         0
places 2
int 1
int 3
func 2 1 none int
  INTK 1 0
  LOOP 0 4
  JZ 0 4
  SUB 0 0 1
  ENDL 0 2
  RET 0
end
func 1 0 int
  INTK 0 1
  RET 0
end
func 2 0 int
  PLACEK 0 0
  AT 1 0 0 1
  RET 1
end
func 3 0 none
  INTK 0 0
  ASYNC 0 0
  PLACEK 1 1
  INTK 0 1
  ATA 0 1 0
  AT 2 0 1 2
  PRINT 2
  RET 0
end
entry 3

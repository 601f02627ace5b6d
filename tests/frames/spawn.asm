; A Spawn in both versions, with a value of each sort: two objects that name each other, and a text
; that two roots name.
;
; $ x10p frame 0101000000010000000000010002000900010001000201000000000000000701ffffffffffffffff020002030000040000050000060700010000000300000300000000000b61620a227122205c20c3a90000000300ff0700010301000000000000000506050001000003050000040000070000000000000001 --places 3
; frame: Spawn, version 1, from place 0 to place 1
; finish: 1 of place 0
; function: 2
; root 0: 7
; root 1: -1
; root 2: place 2
; root 3: text 0
; root 4: rail 0
; root 5: object 0
; root 6: null
; root 7: global reference 3 of place 1, class 0
; root 8: text 0
; text 0: "ab\n\"q\" \\ é"
; rail 0, length 3: 0 255 7
; object 0: class 1
; object 0, field 0: 5
; object 0, field 1: null
; object 0, field 2: object 1
; object 1: class 0
; object 1, field 0: object 0
; object 1, field 1: rail 0
; object 1, field 2: global reference 0 of place 0, class 1
; $ x10p frame 0201000000010000000000010002000900000001000000010000000201000000000000000701ffffffffffffffff0200020300000000040000000005000000000607000100000003000003000000000000000b61620a227122205c20c3a90000000300ff0700010301000000000000000506050000000100000305000000000400000000070000000000000001 --places 3
; frame: Spawn, version 2, from place 0 to place 1
; finish: 1 of place 0
; function: 2
; root 0: 7
; root 1: -1
; root 2: place 2
; root 3: text 0
; root 4: rail 0
; root 5: object 0
; root 6: null
; root 7: global reference 3 of place 1, class 0
; root 8: text 0
; text 0: "ab\n\"q\" \\ é"
; rail 0, length 3: 0 255 7
; object 0: class 1
; object 0, field 0: 5
; object 0, field 1: null
; object 0, field 2: object 1
; object 1: class 0
; object 1, field 0: object 0
; object 1, field 1: rail 0
; object 1, field 2: global reference 0 of place 0, class 1
places 1
func 1 0 none
  RET 0
end
entry 0

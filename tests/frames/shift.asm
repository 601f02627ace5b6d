; A Shift in both versions: the stay that waits is at the place that the frame is from. The finish and
; the function have the greatest numbers that there are.
;
; $ x10p frame 010200020000000000030000ffffffffffff0000000000000000 --places 3
; frame: Shift, version 1, from place 2 to place 0
; waiting: stay 3 of place 2
; finish: 4294967295 of place 0
; function: 65535
; $ x10p frame 020200020000000000030000ffffffffffff0000000000000000000000000000 --places 3
; frame: Shift, version 2, from place 2 to place 0
; waiting: stay 3 of place 2
; finish: 4294967295 of place 0
; function: 65535
places 1
func 1 0 none
  RET 0
end
entry 0

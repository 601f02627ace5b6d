; A Back in both versions: with an empty text as the result, with an empty rail, and without a result.
; The stay that waits is at the place that the frame is for.
;
; $ x10p frame 01030001000000000003000100010000000003000000000000 --places 2
; frame: Back, version 1, from place 1 to place 0
; waiting: stay 3 of place 0
; root 0: text 0
; text 0: ""
; $ x10p frame 020300010000000000030001000000010000000000000000030000000000000000 --places 2
; frame: Back, version 2, from place 1 to place 0
; waiting: stay 3 of place 0
; root 0: text 0
; text 0: ""
; $ x10p frame 01030001000000000003000100000001000004000000000000 --places 2
; frame: Back, version 1, from place 1 to place 0
; waiting: stay 3 of place 0
; root 0: rail 0
; rail 0, length 0:
; $ x10p frame 020300010000000000030000000000000000000000000000 --places 2
; frame: Back, version 2, from place 1 to place 0
; waiting: stay 3 of place 0
places 1
func 1 0 none
  RET 0
end
entry 0

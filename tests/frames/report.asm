; A Report in both versions: the finish is one of the place that the frame is for. At one place there is
; one count of each sort.
;
; $ x10p frame 010400010000000000010003000000000000000000000001000000010000000000000000 --places 3
; frame: Report, version 1, from place 1 to place 0
; finish: 1 of place 0
; sent: 0 0 1
; received: 1 0 0
; $ x10p frame 020400010000000000010003000000000000000000000001000000010000000000000000 --places 3
; frame: Report, version 2, from place 1 to place 0
; finish: 1 of place 0
; sent: 0 0 1
; received: 1 0 0
; $ x10p frame 020400000000ffffffff0001ffffffff00000000 --places 1
; frame: Report, version 2, from place 0 to place 0
; finish: 4294967295 of place 0
; sent: 4294967295
; received: 0
places 1
func 1 0 none
  RET 0
end
entry 0

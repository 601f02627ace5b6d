; What isn't a frame: the first fault from front to back, and with --explain how far the reader came.
;
; $ x10p frame 02 --places 1 --explain
; status 1: frame: Short
; > Short: a frame ends with a field, and this one inside of it. It shows in the first 1 of 1 bytes.
; $ x10p frame 0304 --places 1 --explain
; status 1: frame: Version
; > Version: the first byte is the version, 1 or 2. It shows in the first 1 of 2 bytes.
; $ x10p frame 020500 --places 1 --explain
; status 1: frame: FrameType
; > FrameType: the second byte is the type: 1 Spawn, 2 Shift, 3 Back, 4 Report. It shows in the first 2 of 3 bytes.
; $ x10p frame 020400010000000000010003000000000000000000000001000000010000000000000000 --places 2 --explain
; status 1: frame: Place
; > Place: each place has a number below 2, and a Report has counts of 2 places. It shows in the first 12 of 36 bytes.
; $ x10p frame 020400010000000000010003000000000000000000000001000000010000000000000000 --places 1 --explain
; status 1: frame: Place
; > Place: each place has a number below 1, and a Report has counts of 1 places. It shows in the first 4 of 36 bytes.
; $ x10p frame 0204000100000000000100030000000000000000000000010000000100000000000000 --places 3 --explain
; status 1: frame: Short
; > Short: a frame ends with a field, and this one inside of it. It shows in the first 35 of 35 bytes.
; $ x10p frame 0204000100000000000100030000000000000000000000010000000100000000000000000000 --places 3 --explain
; status 1: frame: Trailing
; > Trailing: nothing follows the last field. That is after 36 of 38 bytes.
; $ x10p frame 020300000000000000000001000000000000000000000000080000000000000001 --places 1 --explain
; status 1: frame: Tag
; > Tag: a value has a tag from 1 to 7. It shows in the first 25 of 33 bytes.
; $ x10p frame 020300000000000000000001000000010000000000000000030000000000000001ff --places 1 --explain
; status 1: frame: Text
; > Text: a text is UTF-8. It shows in the first 34 of 34 bytes.
; $ x10p frame 02030000000000000000000100000002000000000000000003000000010000000000000000 --places 1 --explain
; status 1: frame: Order
; > Order: texts, rails and objects are numbered as they are first used, and each is used. It shows in the first 29 of 37 bytes.
; $ x10p frame 0203000000000000000000000000000100000000000000000000000161 --places 1
; status 1: frame: Order
places 1
func 1 0 none
  RET 0
end
entry 0

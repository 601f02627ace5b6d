; Digits are the frame itself, capitals and small letters alike. Any other word is the name of a file:
; ab with a folder before it, an odd number of digits, and no digits.
;
; $ x10p frame 020300000000000000ABFFFFFFFFFFFFFFFFFFFFFFFF --places 1
; status 1: frame: Order
; $ x10p frame 020300000000000000ab0000000000000000000000000000 --places 1
; frame: Back, version 2, from place 0 to place 0
; waiting: stay 171 of place 0
; $ x10p frame 020300000000000000AB0000000000000000000000000000 --places 1
; frame: Back, version 2, from place 0 to place 0
; waiting: stay 171 of place 0
; $ x10p frame ab --places 1
; status 1: frame: Version
; $ x10p frame ./ab --places 1
; status 4: file
; $ x10p frame ./ab --places 1 --explain
; status 4: file
; > ./ab can't be read: No such file or directory (os error 2).
; $ x10p frame abc --places 1
; status 4: file
; $ x10p frame 0x02 --places 1
; status 4: file
; $ x10p frame "" --places 1
; status 4: file
; $ x10p frame digits_or_file.asm --places 1
; status 1: frame: Version
; $ x10p frame digits_or_file.x10 --places 1
; status 1: frame: Version
; $ x10p frame ab
; status 3
; $ x10p frame --places 1
; status 3
; $ x10p frame ab --places 0
; status 3
; $ x10p frame ab --places 65
; status 3
; $ x10p frame ab --places 1 --limit 5
; status 3
places 1
func 1 0 none
  RET 0
end
entry 0

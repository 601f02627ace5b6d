; 65,534 bytes and 1 byte can be joined, and the result has 65,535. With itself it can't be joined, so
; that the line 1 isn't printed.
;
; canonical
;
; $ x10p bounds one_byte_too_many.x10
; 0 11
; $ x10p run one_byte_too_many.x10
; 0: 65535
; 0: 2
; takes 9 events
places 1
int 1
int 2
text "{{65534 * a}}"
text "b"
func 4 0 none
TEXTK 0 0
TEXTK 1 1
TCAT 2 0 1 8
TLEN 3 2
PRINT 3
TCAT 2 2 1 8
INTK 3 0
PRINT 3
INTK 3 1
PRINT 3
RET 0
end
entry 0

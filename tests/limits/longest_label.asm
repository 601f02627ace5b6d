; A label of 32 letters.
;
; $ x10p run longest_label.x10
; takes 2 events
places 1
int 7
func 1 0 none
INTK 0 0
abcdefghijklmnopqrstuvwxyz012345:
RET 0
end
entry 0

; Where the texts are too long TCAT goes to its label and sets no register.
;
; $ x10p verify tcat_sets_nothing_at_its_label.x10
; status 1: verify: Unset 0 1
places 1
int 7
func 2 0 none text
TCAT 1 0 0 1
PRINT 1
RET 0
end
func 1 0 none
RET 0
end
entry 1

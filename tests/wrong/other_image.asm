; It doesn't have the image that it is said to have.
;
; same image as ../control/loop_in_loop.asm
;
; $ x10p run other_image.x10
; 0: 7
places 1
int 7
func 1 0 none
INTK 0 0
PRINT 0
RET 0
end
entry 0

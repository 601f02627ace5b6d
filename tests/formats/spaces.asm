; Zeros in front of a number, spaces between and after words, a comment behind a space, and no line
; feed at the end.
;
; same image as ../../examples/seven.asm
;
; $ x10p run spaces.x10
; 0: 7

  places   01 
 ;
int 007
   
func 1 00 none
 INTK 0  0
PRINT 0 
RET 0
end
entry 0
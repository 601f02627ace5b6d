; As many finishes in one another as a function has room for, 2,047, and one activity in the innermost: 4,096
; instructions.
;
; $ x10p bounds nested_2047_deep.x10
; 0 3
; 1 4096
; $ x10p run nested_2047_deep.x10
; 0: 7
; takes 4102 events
places 1
int 7
func 1 0 none
  INTK 0 0
  PRINT 0
  RET 0
end
; main
func 1 0 none
{{2047 * FINB}}
  ASYNC 0 0
{{2047 * FINE}}
  RET 0
end
entry 1

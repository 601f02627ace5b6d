; `--threads` is a word of `run` alone, and takes no value. With it `--limit` counts turns of workers.
;
; $ x10p run threads.x10 --threads
; 0: 7
; $ x10p run --threads --places 3 --limit 1 threads.x10
; 0: 7
; $ x10p run threads.x10 --threads --limit 1000000000
; 0: 7
; $ x10p run threads.x10 --threads=2
; status 3
; $ x10p run threads.x10 --thread
; status 3
; $ x10p run threads.x10 --threads --limit 0
; status 3
; $ x10p run threads.x10 --threads --places 65
; status 3
; $ x10p trace threads.x10 --threads
; status 3
; $ x10p draw threads.x10 threads.svg --threads
; status 3
; $ x10p verify threads.x10 --threads
; status 3
; $ x10p bounds threads.x10 --threads
; status 3
; $ x10p list threads.x10 --threads
; status 3
; $ x10p check threads.x10 --threads
; status 3
; $ x10p asm threads.asm other.x10 --threads
; status 3
; $ x10p run --help
; ..
;       --threads              A thread for each place, and no schedule; --limit then counts turns of workers
; ..
places 1
int 7
func 1 0 none
INTK 0 0
PRINT 0
RET 0
end
entry 0

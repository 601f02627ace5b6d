; An ATA inside an atomic region.
;
; $ x10p check ata_in_a_region.asm
; Atomic, function 0, instruction 2: ATA 0 0 0
; line 14: ATA 0 0 0
; ATA stands in the atomic region that begins in line 13: ATOMB
; Nothing is started inside: start it before the ATOMB or after the ATOME.
; status 1: verify: Structure Atomic 0 2
version 2
places 1
func 1 0 none
HERE 0
ATOMB
ATA 0 0 0
ATOME
RET 0
end
entry 0

; No activity is started at another place inside an atomic region.
;
; $ x10p bounds ata.x10
; status 1: verify: Structure Atomic 0 2
; $ x10p verify ata.x10
; status 1: verify: Structure Atomic 0 2
version 2
places 1
func 1 0 none
ATOMB
HERE 0
ATA 0 0 0
ATOME
RET 0
end
entry 0

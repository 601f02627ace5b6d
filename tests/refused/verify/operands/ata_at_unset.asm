; The register that should hold the place isn't set.
;
; $ x10p verify ata_at_unset.x10
; status 1: verify: Unset 1 0
places 1
func 1 0 none
RET 0
end
func 1 0 none
ATA 0 0 0
RET 0
end
func 1 0 none
RET 0
end
entry 2

# The function of the case leading_until_remember.
s16:
	.cfi_startproc
	.cfi_undefined 3
	.cfi_remember_state
	.cfi_undefined 12
	.cfi_restore_state
	.skip 1
	.cfi_def_cfa_offset 16
	.skip 15
	.cfi_endproc

# The function of the case rows_restore.
s16:
	.cfi_startproc
	.skip 1
	.cfi_restore 0
	.skip 1
	.cfi_restore 63
	.skip 1
	.cfi_restore 64
	.skip 1
	.cfi_restore 127
	.skip 1
	.cfi_restore 128
	.skip 1
	.cfi_restore 65535
	.skip 58
	.cfi_endproc

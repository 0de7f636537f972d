# The function of the case rows_def_cfa_negative.
s16:
	.cfi_startproc
	.skip 1
	.cfi_def_cfa 7, -8
	.skip 1
	.cfi_def_cfa 7, -16
	.skip 1
	.cfi_def_cfa 7, -504
	.skip 1
	.cfi_def_cfa 7, -512
	.skip 1
	.cfi_def_cfa 7, -520
	.skip 1
	.cfi_def_cfa 7, -65536
	.skip 1
	.cfi_def_cfa 7, -2147483648
	.skip 57
	.cfi_endproc

# The function of the case rows_offset_below.
s16:
	.cfi_startproc
	.skip 1
	.cfi_offset 6, 0
	.skip 1
	.cfi_offset 6, -8
	.skip 1
	.cfi_offset 6, -1016
	.skip 1
	.cfi_offset 6, -1024
	.skip 1
	.cfi_offset 6, -131064
	.skip 1
	.cfi_offset 6, -131072
	.skip 1
	.cfi_offset 6, -2147483648
	.skip 57
	.cfi_endproc

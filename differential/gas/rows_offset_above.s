# The function of the case rows_offset_above.
s16:
	.cfi_startproc
	.skip 1
	.cfi_offset 6, 8
	.skip 1
	.cfi_offset 6, 504
	.skip 1
	.cfi_offset 6, 512
	.skip 1
	.cfi_offset 6, 520
	.skip 1
	.cfi_offset 6, 2147483640
	.skip 59
	.cfi_endproc

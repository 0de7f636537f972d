# The function of the case rows_offset_registers.
s16:
	.cfi_startproc
	.skip 1
	.cfi_offset 0, -16
	.skip 1
	.cfi_offset 63, -16
	.skip 1
	.cfi_offset 64, -16
	.skip 1
	.cfi_offset 127, -16
	.skip 1
	.cfi_offset 128, -16
	.skip 1
	.cfi_offset 65535, -16
	.skip 58
	.cfi_endproc

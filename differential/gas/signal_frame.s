# The function of the case signal_frame: simple, with the signal mark and rows that lead.
s16:
	.cfi_startproc simple
	.cfi_signal_frame
	.cfi_def_cfa 7, 160
	.cfi_offset 16, -8
	nop
	.cfi_remember_state
	mov $15, %eax
	nop
	.cfi_undefined 16
	syscall
	.cfi_endproc

# The same functions, in .debug_frame.
	.cfi_sections .debug_frame
s16:
	.cfi_startproc
	push %rbp
	.cfi_def_cfa_offset 16
	.cfi_offset 6, -16
	mov %rsp, %rbp
	.cfi_def_cfa_register 6
	pop %rbp
	.cfi_def_cfa 7, 8
	ret
	.cfi_endproc
s17:
	.cfi_startproc
	push %rbp
	.cfi_def_cfa_offset 16
	.cfi_offset 6, -16
	mov %rsp, %rbp
	.cfi_def_cfa_register 6
	mov $1, %eax
	pop %rbp
	.cfi_def_cfa 7, 8
	ret
	.cfi_endproc

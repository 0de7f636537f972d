# The functions of the case landing_and_named. gas has no landings: the first function names the
# routine and the table that the Rust names for landings, in the same encodings. The bytes of the
# call sites stand in the Rust's own section and are not compared.
s16:
	.cfi_startproc
	.cfi_personality 0x9b, DW.ref.__gcc_personality_v0
	.cfi_lsda 0x1b, sites
	push %rbp
	.cfi_def_cfa_offset 16
	.cfi_offset 6, -16
	mov %rsp, %rbp
	.cfi_def_cfa_register 6
	pop %rbp
	.cfi_def_cfa 7, 8
	ret
	.cfi_endproc
s17:
	.cfi_startproc
	.cfi_personality 0x9b, s40
	.cfi_lsda 0x1b, s41
	push %rbp
	.cfi_def_cfa_offset 16
	.cfi_offset 6, -16
	mov %rsp, %rbp
	.cfi_def_cfa_register 6
	mov $1, %eax
	pop %rbp
	.cfi_def_cfa 7, 8
	ret
	.cfi_endproc
s18:
	.cfi_startproc
	ret
	.cfi_endproc

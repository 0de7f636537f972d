# The functions of the case steps_functions: one step each, at the boundaries of the forms.
s16:
	.cfi_startproc
	.skip 1
	.cfi_def_cfa_offset 16
	.skip 69999
	.cfi_endproc
s17:
	.cfi_startproc
	.skip 63
	.cfi_def_cfa_offset 16
	.skip 69937
	.cfi_endproc
s18:
	.cfi_startproc
	.skip 64
	.cfi_def_cfa_offset 16
	.skip 69936
	.cfi_endproc
s19:
	.cfi_startproc
	.skip 255
	.cfi_def_cfa_offset 16
	.skip 69745
	.cfi_endproc
s20:
	.cfi_startproc
	.skip 256
	.cfi_def_cfa_offset 16
	.skip 69744
	.cfi_endproc
s21:
	.cfi_startproc
	.skip 65535
	.cfi_def_cfa_offset 16
	.skip 4465
	.cfi_endproc
s22:
	.cfi_startproc
	.skip 65536
	.cfi_def_cfa_offset 16
	.skip 4464
	.cfi_endproc

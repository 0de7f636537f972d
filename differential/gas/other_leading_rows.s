# The functions of the case other_leading_rows.
# Not compared: gas reuses a header whose rows are the first of the function's leading rows and puts
# the others in the record; the Rust reuses only a header whose rows are all of them.
s16:
	.cfi_startproc
	.skip 16
	.cfi_endproc
s17:
	.cfi_startproc
	.cfi_undefined 3
	.skip 16
	.cfi_endproc
s18:
	.cfi_startproc
	.cfi_undefined 3
	.cfi_undefined 12
	.skip 16
	.cfi_endproc
s19:
	.cfi_startproc
	.cfi_undefined 12
	.cfi_undefined 3
	.skip 16
	.cfi_endproc
s20:
	.cfi_startproc
	.cfi_undefined 3
	.skip 16
	.cfi_endproc

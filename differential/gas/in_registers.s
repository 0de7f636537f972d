# The function of the case in_registers.
# Not compared: the Rust has no such rows. checks/writers.py compares the library's bytes with these.
s16:
	.cfi_startproc
	.cfi_same_value 3
	.cfi_register 130, 200
	.skip 1
	.cfi_register 12, 13
	.skip 3
	.cfi_same_value 300
	.skip 4
	.cfi_endproc

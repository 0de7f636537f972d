# The function of the case in_registers_debug.
# Not compared: the Rust has no such rows. checks/writers.py compares the library's bytes with these.
	.cfi_sections .debug_frame
s16:
	.cfi_startproc
	.cfi_same_value 3
	.cfi_register 130, 200
	.skip 1
	.cfi_register 12, 13
	.skip 3
	.cfi_same_value 300
	.skip 4
	.cfi_endproc

# The functions of the case diff_absptr_word8.
# Not compared: gas writes 8 bytes for the encoding 0x00, the Rust 4. See docs/DIFFERENCES.md.
s16:
	.cfi_startproc
	.cfi_personality 0x00, s40
	nop
	.cfi_endproc
s17:
	.cfi_startproc
	nop
	.cfi_endproc

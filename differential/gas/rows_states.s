# The function of the case rows_states. window_save is the opcode of NegateRaState.
s16:
	.cfi_startproc
	.skip 1
	.cfi_remember_state
	.skip 1
	.cfi_restore_state
	.skip 1
	.cfi_window_save
	.cfi_remember_state
	.skip 1
	.cfi_window_save
	.cfi_restore_state
	.skip 60
	.cfi_endproc

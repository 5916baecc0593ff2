# A library of another version, for the crate to refuse: PLANNER and PACKETS are what its two version calls give. Whoever asks anything else of it
# dies, since a library of another version may have another layout.
        .globl  planner_version, packet_version
planner_version:
        mov     $PLANNER, %eax
        ret
packet_version:
        mov     $PACKETS, %eax
        ret

        .globl  planner_open, planner_add, planner_remove, planner_send, planner_round, planner_check, packet_write, packet_read, superframe
planner_open: planner_add: planner_remove: planner_send: planner_round: planner_check: packet_write: packet_read: superframe:
        ud2

        .section .note.GNU-stack, "", @progbits

; Only `sched` has watches, so the second word of these is refused: status 2. This text is not looked at.

.board
        halt

; A flag stands once: the fourth word of these is refused. This text is not looked at.

.board
        halt

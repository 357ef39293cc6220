; The digits of an address are lower-case, so the fourth word is refused: status 2. This text is not looked at.

.board
        halt

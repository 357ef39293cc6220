; An address has digits alone, and no 0x in front, so the fourth word is refused: status 2. This text is not looked at.

.board
        halt

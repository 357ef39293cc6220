; An address is below 4000000000 in hexadecimal, so the fourth word is refused: status 2. This text is not looked at.

.board
        halt

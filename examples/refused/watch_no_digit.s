; An address has at least one digit, so the fourth word, which is empty, is refused: status 2. This text is not looked at.

.board
        halt

; An address has at most 10 digits, zeros in front among them, so the fourth word is refused: status 2. This text is not looked at.

.board
        halt

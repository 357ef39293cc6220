; The words are refused, at the third of them, for a budget is at least 1: status 2. This text is not looked at.

.board
        halt

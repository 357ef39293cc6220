; The words have a ninth watch, and its own word, the 19th, is refused: status 2. This text is not looked at.

.board
        halt

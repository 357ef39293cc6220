; At most 128 lines are flushed ahead of need, as many as a page has, so the third word is refused: status 2. This text is not
; looked at.

.board
        halt

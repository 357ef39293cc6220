; A label that stands nowhere, so this is no text that can be run: status 3.

.board
        jmp  nowhere
        halt

; The word lies in a page that is not declared.
.page 0 0 rw
.word 0 4100 1
.board
        halt

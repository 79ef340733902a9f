# Every word is written in turn, over and over.
        load 1, 0
        load 6, 1
        load 7, 65535
next:   write 1, 1, 0
        reckon sum 1, 6
        reckon and 1, 7
        jump next

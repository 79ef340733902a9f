# The worked box without an end: each round adds 5 to word 10 and counts in word 11.
        load 15, 1000
        load 7, 20
        load 1, 10
round:  load 2, 5
        jump equal 2, 3, last
        read 4, 1, 0
        reckon sum 4, 2
        write 4, 1, 0
        call count
        jump round
last:   out 4
        halt
count:  read 5, 1, 1
        load 6, 1
        reckon sum 5, 6
        jump not below 4, 7, over
        write 5, 1, 1
over:   write 4, 1, 1
        return

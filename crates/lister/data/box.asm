# The worked box: adds up what comes in, up to a 0, and counts it.
# Word 10 is to hold the sum, and word 11 how many numbers came in.
# Registers: 1 the place of word 10, 2 what came in, 3 always 0, 4 the sum,
# 5 the count, 6 always 1, 7 from here on the sum is large, 15 the stack.

        load 15, 1000           # the stack grows down from word 1000
        load 7, 20
        load 1, 10

next:   in 2
        jump equal 2, 3, done   # a 0 ends the list
        read 4, 1, 0
        reckon sum 4, 2
        write 4, 1, 0
        call counted
        jump next

done:   out 4
        halt

# One more has come in.
counted:
        read 5, 1, 1
        load 6, 1
        reckon sum 5, 6
        jump not below 4, 7, large
        write 5, 1, 1
large:  write 4, 1, 1           # the bug: this writes the sum over the count
        return

        load 1, 10
        lode 2, 11

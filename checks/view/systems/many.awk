# Prints the configuration of the bodies many.src: on eight processors 255 tasks, and on each a semaphore, an interrupt
# and a cyclic handler.
BEGIN {
    print "NUM_PRC(8);"
    for (p = 1; p <= 8; p++) {
        print "CLASS(TCL_" p ") {"
        for (i = p; i <= 255; i += 8)
            printf "CRE_TSK(TASK_%d, { TA_ACT, %d, work, %d, 256, NULL });\n", i, i, i % 16 + 1
        printf "CRE_SEM(SEM_%d, { TA_TFIFO, 1, 4 });\n", p
        printf "DEF_INH(%d, { TA_NULL, knock });\n", p
        printf "CRE_CYC(CYC_%d, { TA_STA, %d, beat, %d, 0 });\n", p, p, 20 + p
        print "}"
    }
}

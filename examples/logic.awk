# Prints what a logic analyser writes of two seconds of format B (D1) next to another signal (D0): a row for each change of D1.
BEGIN {
    print "Time [s],D0,D1"
    for (k = 0; k < 202; k++) {
        element = (k + 99) % 100
        width = element == 0 || element % 10 == 9 ? 8 : element == 30 || k == 102 ? 5 : 2  # in milliseconds
        printf "%.3f,%d,1\n%.3f,%d,0\n", (k + 1) / 100, k % 2, (10 * k + 10 + width) / 1000, k % 2
    }
}

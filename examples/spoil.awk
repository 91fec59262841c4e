# Prints a script that spoils a recording of format B and 10,000 seconds in 498 places, from the end to the beginning:
# awk -f spoil.awk | irig_ed --out spoiled.vcd recording.vcd
function at(time) { return sprintf("%.0f", time) }
BEGIN {
    for (n = 498; n > 0; n--) {
        pulse = 2000 * n + n * 1571 % 1900
        rise = (pulse - 1) * 10000  # in microseconds
        kind = n % 8
        if (kind == 0) print pulse " delete"
        if (kind == 1) print "invert " at(rise + 500) " " at(rise + 540)
        if (kind == 2) print "insert " at(rise - 900) " " at(rise - 850)
        if (kind == 3) print pulse " join"
        if (kind == 4) print pulse "," pulse + 299 " delete"
        if (kind == 5) print pulse " shift 1200"
        if (kind == 6) print "invert " at(rise + 9000) " " at(rise + 9700)
        if (kind == 7) print pulse "," pulse + 20 " delete"
    }
    print "write"
}

# Makes two wires of the dump of a time code, as a recorder wrote them that lost 7.3 milliseconds of both at 3.456
# seconds. The second one is data: a pulse of one millisecond in the middle of each second.
function kept(time) { return time < 3456000 ? time : time < 3463300 ? -1 : time - 7300 }
function put(time, change) { if (kept(time) >= 0) print "#" kept(time) " " change }
BEGIN {
    print "$timescale 1 us $end\n$var wire 1 ! code $end\n$var wire 1 \" data $end\n$enddefinitions $end\n#0 0\""
    edge = 500000
    high = 1
}
/^#/ { time = substr($0, 2) + 0 }
/^[01]!/ {
    for (; edge <= time; high = !high) {
        put(edge, high "\"")
        edge += high ? 1000 : 999000
    }
    put(time, $0)
}
END { print "#" kept(time) + 7300 }

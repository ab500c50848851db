# Reads the lines of scripts/bench, WHO AXES SHAPE ROWS CALL NUMBER ANSWER, and prints the least number of each call; if Boost ran
# too, Boost's least and the ratio to it.
{
    row = $2 " " $3 " " $4
    if (!(row in known)) { known[row] = ++rows; name[rows] = row }
    if (!(($1, row, $5) in least) || $6 + 0 < least[$1, row, $5]) least[$1, row, $5] = $6
    if (!((row, $5) in answer)) answer[row, $5] = $7
    if ($7 != answer[row, $5]) differ[row] = differ[row] " " $5
}

function beside(row, call,    text) {
    text = least["own", row, call]
    if (("boost", row, call) in least)
        text = sprintf("%s/%s %.2f", text, least["boost", row, call], text / least["boost", row, call])
    return text
}

END {
    for (at = 1; at <= rows; at++) {
        row = name[at]
        split(row, part, " ")
        if (at == 1)
            printf "%-4s %-9s %8s %18s %17s %8s %22s %22s %15s\n", "axes", "shape", "rows", "insertion", "removal",
                "look-up", "search of ten", "search of 1 %", "bytes"
        printf "%-4s %-9s %8s %18s %17s %8s %22s %22s %15s\n", part[1], part[2], part[3], beside(row, "insert"),
            beside(row, "delete"), beside(row, "look_up"), beside(row, "search_10"), beside(row, "search_1000"),
            beside(row, "bytes")
        if (row in differ)
            print "  the answers differ:" differ[row]
    }
}

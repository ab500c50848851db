# Turns lines of id,west,east,south,north,name in degrees into INSERTs in ten millionths of a degree. Minima are rounded down and
# maxima up, so that a box holds all that it held. A field that is no number stays as it is: rtsh refuses its row.
#
#     awk -f examples/degrees.awk -v table=trees trees.csv > trees.sql
#
# The digits are shifted as text: as a float, one number of seven decimals in eight would miss its own whole number. Fields aren't
# quoted; degrees.py takes quotes.

function whole(degrees, up,    sign, fraction, dot, number) {
    if (degrees !~ /^[-+]?([0-9]+\.?[0-9]*|\.[0-9]+)([eE][-+]?[0-9]+)?$/) return degrees
    if (degrees ~ /[eE]/) degrees = sprintf("%.15f", degrees)
    sign = degrees ~ /^-/ ? -1 : 1
    sub(/^[-+]/, "", degrees)
    dot = index(degrees ".", ".")
    fraction = substr(degrees, dot + 1) "0000000"
    number = sign * (substr(degrees, 1, dot - 1) substr(fraction, 1, 7))
    if (substr(fraction, 8) ~ /[1-9]/ && up == (sign > 0)) number += sign
    # mawk's %d would turn what is above 2147483647 into that; rtsh refuses it.
    return sprintf("%.0f", number + 0)
}

function text(name) {
    if (name == "") return "NULL"
    gsub(/\047/, "\047\047", name)
    return "\047" name "\047"
}

BEGIN { FS = ", *" }
{
    sub(/\r$/, "")
    printf "INSERT INTO %s VALUES (%s,%s,%s,%s,%s,%s);\n", table, $1, whole($2, 0), whole($3, 1), whole($4, 0), whole($5, 1), text($6)
}

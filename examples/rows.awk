# The table of docs/IMAGE.md for areas.c: its rows, each number with the values that it may have and the part that it belongs to,
# and the place of each. A row that it cannot read is an error.
function row(at, bytes, least, most) { rows = rows " \\\n    {" at ", " bytes ", " least ", " most ", " part "}," }
BEGIN { FS = " *[|] *"; of["down"] = "DOWN"; of["multi"] = "MULTI"; of["pair"] = "PAIR"; of["multi end"] = "MULTI_END" }
/^\| Offset / { within = 1 }
/^$/ { within = 0 }
within && $2 ~ /^[0-9]+$/ {
    at = $2; bytes = $3; name = $4; values = $6
    part = "ALWAYS"
    if ($5 ~ /: /) {
        owner = $5
        sub(/: .*/, "", owner)
        if (!(owner in of)) { print "rows.awk: no such part: " owner >"/dev/stderr"; exit wrong = 1 }
        part = of[owner]
    }
    gsub(/`/, "", name)
    gsub(/[.]/, "_", name)
    places = places (places ? ", " : "") "AT_" name " = " at
    sub(/;.*/, "", values)
    if (values == "on the panel") {
        row(at, 2, 0, "WIDTH - 1")
        row(at + 2, 2, 0, "HEIGHT - 1")
    } else if (values == "any") row(at, bytes, 0, bytes == 8 ? "UINT64_MAX" : 256 ^ bytes - 1)
    else {
        n = split(values, value, /, |[.][.]/)
        for (i = 1; i <= n; i++)
            if (value[i] !~ /^[0-9]+( |$)/) { print "rows.awk: no number: " values >"/dev/stderr"; exit wrong = 1 }
        row(at, bytes, value[1] + 0, value[n] + 0)
    }
}
END {
    if (wrong || !rows) exit 1
    print "/* docs/IMAGE.md, by rows.awk */"
    print "#define IMAGE_ROWS" rows
    print ""
    print "enum { " places " };"
}

# Turns the entries of docs/CALLS.md, 'What is bad in an entry', into rows for tests/c/entries.c, with reason 0 where nothing is bad:
#     awk -f tests/entries_in_c.awk docs/CALLS.md
/^## / { here = $0 == "## What is bad in an entry" }

# a row of a table: word 0, word 1, what is wrong, reason
here && /^\| [0-9a-f]+ \| [0-9a-f]+ \| / {
    split($0, column, / *\| */)
    print "{0x" column[2] ", 0x" column[3] ", " (column[5] == "–" ? 0 : column[5]) "},"
}

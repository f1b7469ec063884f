# Turns the examples of docs/CALLS.md, which are one run from an empty table, into statements for tests/c/calls.c:
#     awk -f tests/calls_in_c.awk docs/CALLS.md
# A call is a numbered row of a table, or a numbered line, with its answer behind it or on a line that begins with `answer`.

# `page_write(&t, &mut m, 0, 0, 0x2000, &[0x11; 512])` as a call of the library
function asked(number, call) {
    gsub(/&(mut )?t,/, "t, TABLE_WORDS,", call)
    gsub(/&(mut )?m,/, "m, MEMORY_WORDS,", call)
    if (match(call, /&\[[^\]]*\]/)) {
        run = substr(call, RSTART + 2, RLENGTH - 3)
        split(run, part, "; ")
        call = substr(call, 1, RSTART - 1) "filled(" part[1] "), " part[2] substr(call, RSTART + RLENGTH)
    }
    made = "(" number ", skorbilek_" call ", "
}

# `Refused, 2: ..`, `Closed { asid: 7, gpa: 0x40000 }`, `Word(0x2a)`, `Word(0x2a) at 0x50000`, `&m[512*2..512*3]`, `Mapping { gpa: .. }`,
# `Opened`, .. as what is expected
function answered(said) {
    gsub(/`/, "", said)
    sub(/^ +/, "", said)
    sub(/ +$/, "", said)
    if (said ~ /^&m\[/) {
        sub(/:.*/, "", said)
        sub(/^&m\[/, "", said)
        sub(/\.\..*/, "", said)
        print "hands" made (said == "" ? "NULL" : "m + " said) ");"
        return
    }
    if (said ~ /^Mapping /) {
        gsub(/ *[{}] *|^Mapping/, "", said)
        gsub(/[a-z]+:/, ".&", said)
        gsub(/:/, " =", said)
        print "maps" made "(skorbilek_mapping){" said "});"
        return
    }
    if (made ~ /skorbilek_walk/) {
        sub(/^Refused, /, "", said)
        sub(/:.*/, "", said)
        print "maps" made "(skorbilek_mapping){.refusal = " said "});"
        return
    }
    named = ""
    if (match(said, / at 0x[0-9a-f]+$/)) {
        named = ", .gpa = " substr(said, RSTART + 4)
        said = substr(said, 1, RSTART - 1)
    }
    if (said ~ /^Refused, /) { sub(/^Refused, /, "", said); sub(/:.*/, "", said); said = ".refusal = " said }
    else if (said ~ /^Closed /) { gsub(/ *[{}] *|:|^Closed/, "", said); gsub(/asid/, ".asid =", said); gsub(/gpa/, ".gpa =", said); said = ".kind = SKORBILEK_CLOSED, " said }
    else if (match(said, /\([^)]*\)/)) said = ".kind = SKORBILEK_" toupper(substr(said, 1, RSTART - 1)) (said ~ /^Unfixed/ ? ", .asid = " : ", .value = ") substr(said, RSTART + 1, RLENGTH - 2)
    else { sub(/:.*/, "", said); said = ".kind = SKORBILEK_" toupper(said) }
    print "answers" made "(skorbilek_answer){" said named "});"
}

/^\| [0-9]+ \| `[a-z_]+\(&/ {
    split($0, column, "|")
    gsub(/[ `]*$|^[ `]*/, "", column[3])
    asked(column[2] + 0, column[3])
    answered(column[4])
    next
}

/^[0-9]+ +[a-z_]+\(&/ {
    call = $0
    sub(/^[0-9]+ +/, "", call)
    rest = substr(call, index(call, ")") + 1)
    asked($1, substr(call, 1, index(call, ")")))
    if (rest ~ /[^ ]/) answered(rest)
    next
}

/^answer / { sub(/^answer/, ""); answered($0) }

# Turns the examples of docs/CALLS.md, which are one run from an empty table, into a script and what it must print, as far as a script goes:
#     awk -v script=FILE -v output=FILE -f tests/calls.awk docs/CALLS.md
BEGIN {
    letters = "rmpupdate U pvalidate V pfix F pmerge M punmerge D punfix X read R write W census C"
    n = split(letters, pair, " ")
    for (i = 1; i < n; i += 2) letter[pair[i]] = pair[i + 1]
}

# `rmpupdate(&mut t, &mut m, 0, 0x2000, ..)` as a line of a script
function asked(call) {
    name = substr(call, 1, index(call, "(") - 1)
    call = substr(call, length(name) + 2, index(call, ")") - length(name) - 2)
    gsub(/&(mut )?[tm],? ?|0x/, "", call)
    gsub(/,/, "", call)
    print letter[name] " " call > script
}

# `Refused, 2: ..`, `Closed { asid: 7, gpa: 0x40000 }`, `Word(0x2a)`, `Opened`, .. as a line of output
function answered(answer) {
    gsub(/0x|`/, "", answer)
    sub(/^ +/, "", answer)
    sub(/ +$/, "", answer)
    if (answer ~ /^Refused, /) { sub(/^Refused, /, "no ", answer); sub(/:.*/, "", answer) }
    else if (answer ~ /^Closed /) { gsub(/[{},:]|asid|gpa/, "", answer); gsub(/ +/, " ", answer); sub(/ $/, "", answer); sub(/^Closed/, "ok closed", answer) }
    else if (answer ~ /^(Word|Count|Unfixed)\(/) { sub(/\).*/, "", answer); sub(/.*\(/, "", answer); answer = "ok " answer }
    else if (answer == "Done") answer = "ok"
    else answer = "ok " tolower(answer)
    print letter[name] " " answer > output
}

# the script has no letters for calls on whole pages and by virtual address, which stand last
/^[0-9]+ +page_/ { exit }

# a row of a table: number, call, answer, reason
/^\| [0-9]+ \| `[a-z]+\(&/ { split($0, column, "|"); call = column[3]; gsub(/[ `]*$|^[ `]*/, "", call); asked(call); answered(column[4]); next }

# a line: number, call, and the answer, unless it follows on a line of its own
/^[0-9]+ +[a-z]+\(&/ {
    sub(/^[0-9]+ +/, "")
    asked($0)
    rest = substr($0, index($0, ")") + 1)
    if (rest ~ /[^ ]/) answered(rest)
    next
}

/^answer / { sub(/^answer/, ""); answered($0) }

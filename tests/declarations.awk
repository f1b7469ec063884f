# Prints how a file declares the library's functions, a line each: its name, which struct it returns, then its parameters, `*` before a run
# of words and `const` where it can't be changed. It reads the Rattle source, the C header and the Rust bindings, so that the three can be
# compared. A function that the header defines itself, inline, is none of the library's.
#     awk -f tests/declarations.awk include/skorbilek.h
{ text = text " " $0 }

# a parameter: `table: &mut [u64]`, `uint64_t *table, size_t table_words` and `table: *mut u64, table_words: usize` are one
function parameter(p) {
    if (p ~ /size_t|usize/) return ""
    run = p ~ /[*&]/ ? (p ~ /const/ || p ~ /&\[/ ? " const*" : " *") : " "
    if (p ~ /:/) sub(/ *:.*/, "", p)
    gsub(/^ +| +$/, "", p)
    sub(/.*[ *]/, "", p)
    return run (p == "type" ? "kind" : p)
}

# what is returned stands before the name, `skorbilek_mapping`, or behind the parameters, `-> FlatMapping`
function returned(before, after) {
    if (match(after, /^ *-> *[A-Za-z]+/)) before = substr(after, 1, RLENGTH)
    sub(/ +$/, "", before)
    sub(/.* /, "", before)
    return tolower(before) ~ /mapp/ ? " mapping" : " answer"
}

END {
    while (match(text, /skorbilek_[a-z_0-9]+\([^)]*\)/)) {
        before = substr(text, 1, RSTART - 1)
        said = substr(text, RSTART, RLENGTH)
        text = substr(text, RSTART + RLENGTH)
        name = substr(said, 1, index(said, "(") - 1)
        if (name in seen || before ~ /inline [a-z_0-9 *]*$/) continue
        seen[name] = 1
        n = split(substr(said, length(name) + 2, length(said) - length(name) - 2), list, ",")
        line = name returned(before, text)
        for (i = 1; i <= n; i++) if (list[i] ~ /[a-z]/) line = line parameter(list[i])
        print line
    }
}

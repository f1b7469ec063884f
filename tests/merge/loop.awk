# The loop of a function that compares vectors, from what `objdump -d --no-show-raw-insn` prints of the function: a line for each
# instruction, its address and what it is (load, vector, place or jump). No other instruction may stand in it, but with -v any=1, and
# the one jump is the last. So the words that are loaded stay in vector registers, and the jump, as all that sets flags, goes by the
# place alone. Else, and unless there is one such loop, it says why, and the exit status is 1.

# what an instruction is: from memory to a vector register; on vector registers alone; on other registers and numbers alone
function kind(name, operands) {
    if (name ~ /^j/)
        return "jump"
    if (name ~ /^(v?ptest|v?u?comis[sd])$/)
        return "other"
    if (operands ~ /^[^,]*\([^)]*\),%xmm[0-9]+$/)
        return "load"
    if (operands ~ /^(\$0x[0-9a-f]+,)?(%xmm[0-9]+,)?%xmm[0-9]+$/)
        return "vector"
    if (name ~ /^(add|sub|cmp|inc|dec|mov)$/ && operands !~ /xmm|\(/ || name == "lea")
        return "place"
    return "other"
}

function number(hex,    i, n) {
    n = 0
    for (i = 1; i <= length(hex); i++)
        n = 16 * n + index("0123456789abcdef", substr(hex, i, 1)) - 1
    return n
}

$1 ~ /^[0-9a-f]+:$/ && NF > 1 {
    count++
    address[count] = substr($1, 1, length($1) - 1)
    text[count] = $2 " " $3
    kinds[count] = kind($2, $3)
    if ($2 ~ /^j/)
        target[count] = number($3)
    at[number(address[count])] = count
    compares[count] = $2 ~ /^pcmpeq/
}

END {
    # a jump back over an instruction that compares; the shortest is the loop
    for (last = 1; last <= count; last++) {
        first = (last in target) && (target[last] in at) ? at[target[last]] : count + 1
        inside = 0
        for (i = first; i <= last; i++)
            inside += compares[i]
        if (inside > 0 && (!to || last - first < to - from)) {
            from = first
            to = last
            compared = inside
        }
        all += compares[last]
    }
    if (!to || compared != all) {
        print "there is not one loop that compares vectors: " all + 0 " instructions do, " compared + 0 " of them in a loop"
        exit 1
    }
    for (i = from; i <= to; i++) {
        if (!any && (kinds[i] == "other" || (kinds[i] == "jump") != (i == to))) {
            print "a word may decide about more than a count, by " text[i]
            exit 1
        }
        print address[i], kinds[i]
    }
}

# Prints the structs of numbers that pass between the languages, a line each: which one it is, and its fields in order, those that are no
# 64-bit numbers with their types. It reads the Rattle source and the Rust bindings, where `#[repr(C)]` stands before such a struct, and the
# C header, where `typedef` does, so that the three can be compared.
#     awk -f tests/structs.awk include/skorbilek.h
/^ *#\[repr\(C\)\]/ { passes = 1; next }

/struct [A-Za-z_]+ \{/ && (passes || /typedef/) {
    line = tolower($0) ~ /mapp/ ? "mapping" : "answer"
    passes = 0
    inside = 1
    next
}

inside && /^ *}/ { print line; inside = 0 }

# a field: `uint64_t gpa; /* .. */`, `pub gpa: u64,` and `gpa: u64,` are one
inside {
    sub(/\/[\/*].*/, "")
    sub(/^ *(pub(\([a-z]+\))? )?/, "")
    sub(/^uint64_t /, "")
    sub(/ +$/, "")
    sub(/: u64,$/, "")
    sub(/[;,]$/, "")
    gsub(/ +/, "_")
    if ($0 != "" && $0 !~ /^#/) line = line " " $0
}

# Reads what `objdump -dr` prints of a library and prints, for each function, the bytes of stack of its own frame, its return address
# included, then with the deepest of the functions that it calls, and the way down to that one. Functions of the C library count as nothing.
#
# A frame is what the function pushes and takes off the stack pointer, each added up over the whole function: it is never less than what
# the function takes, and it is that where these stand at its beginning only, as compilers put them.
function hexadecimal(text,    i, value) {
    value = 0
    for (i = 3; i <= length(text); i++)
        value = value * 16 + index("0123456789abcdef", substr(text, i, 1)) - 1
    return value
}

# the function's frame with those below it
function deep(name,    i, below, most, by) {
    if (name in known) return known[name]
    known[name] = frame[name]
    most = 0
    by = ""
    for (i = 1; i <= calls[name]; i++)
        if (call[name, i] in frame) {
            below = deep(call[name, i])
            if (below > most) {
                most = below
                by = call[name, i]
            }
        }
    next_down[name] = by
    known[name] = frame[name] + most
    return known[name]
}

/^[0-9a-f]+ <.*>:$/ {
    at = $2
    gsub(/^<|>:$/, "", at)
    names[++count] = at
    frame[at] = 8
    calls[at] = 0
    next
}

$2 == "push" { frame[at] += 8 }
$2 == "sub" && $3 ~ /^\$0x[0-9a-f]+,%rsp$/ {
    split($3, parts, ",")
    frame[at] += hexadecimal(substr(parts[1], 2))
}
# aligning takes at most one less than the alignment
$2 == "and" && $3 ~ /^\$0xf+[0-9a-f]+,%rsp$/ { frame[at] += 63 }

# a call, or a jump to another function in its stead, of this library or by a relocation
$2 ~ /^(call|callq|jmp|jmpq)$/ && $4 ~ /^<.*>$/ {
    to = $4
    gsub(/^<|>$/, "", to)
    if (to !~ /\+0x/ && to != at) call[at, ++calls[at]] = to
}
$2 ~ /^R_X86_64_(PLT32|PC32)$/ && $3 ~ /-0x4$/ {
    to = $3
    sub(/-0x4$/, "", to)
    sub(/^\.text\./, "", to)
    call[at, ++calls[at]] = to
}

END {
    for (i = 1; i <= count; i++) {
        deepest = deep(names[i])
        way = names[i]
        for (name = next_down[names[i]]; name != ""; name = next_down[name]) way = way " > " name
        printf "%6d %6d  %s\n", frame[names[i]], deepest, way
    }
}

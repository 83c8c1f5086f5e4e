# Reads `objdump -dr --no-show-raw-insn` of the library and prints the most stack that a call of it
# can take by its machine code: of each function the frame (its return address, its pushes and what
# is taken off the stack pointer), and of its calls the deepest. memset and memcpy are the caller's
# libc and not in it. -v most=KIB fails where it is more, and so does recursion or a call by pointer,
# of which this could say nothing.

/^[0-9a-f]+ <.*>:$/ {
    name = bare(substr($2, 2, length($2) - 3))
    frame[name] = 8
}
/\tpush / { frame[name] += 8 }
# A large frame is taken page by page, down to where this register points.
/\tsub +\$0x[0-9a-f]+,%r11/ && probing { frame[name] += number($0) }
{ probing = /\tmov +%rsp,%r11/ }
/\tsub +\$0x[0-9a-f]+,%rsp/ && number($0) != 4096 { frame[name] += number($0) }
/\tcall +\*/ { fault(name " calls by a pointer") }
/R_X86_64_(PLT32|PC32)\t/ && /\.text\./ { calls[name] = calls[name] " " bare($3) }

END {
    for (entry in frame)
        if (entry ~ /^hencouch_/ && depth(entry) > all) { all = depth(entry); deepest = entry }
    if (failed || all == 0) fault("no bound")
    printf "at most %d bytes, %.1f KiB, by the machine code: %s\n", all, all / 1024, way(deepest)
    if (all > 1024 * most) fault("more than the " most " KiB that the header allows")
    exit failed
}

# The name of a section or a relocation without what is before and behind the function's.
function bare(text) {
    sub(/^\.text\./, "", text)
    sub(/[-+]0x[0-9a-f]+$/, "", text)
    return text
}

function fault(text) {
    if (!failed) print text
    failed = 1
}

# The constant of an instruction.
function number(line,    digits, i, value) {
    match(line, /\$0x[0-9a-f]+/)
    digits = substr(line, RSTART + 3, RLENGTH - 3)
    for (i = 1; i <= length(digits); i++)
        value = 16 * value + index("0123456789abcdef", substr(digits, i, 1)) - 1
    return value
}

function depth(f,    parts, count, i, below) {
    if (f in known) return known[f]
    if (f in open) { fault(f " calls itself"); return 0 }
    open[f] = 1
    below = 0
    count = split(calls[f], parts, " ")
    for (i = 1; i <= count; i++)
        if (parts[i] in frame && depth(parts[i]) > below) { below = depth(parts[i]); to[f] = parts[i] }
    delete open[f]
    return known[f] = frame[f] + below
}

function way(f) {
    return f " " frame[f] (to[f] == "" ? "" : ", " way(to[f]))
}

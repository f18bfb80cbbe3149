# The stack that each function may need at most, with all that it calls, from a program's disassembly (objdump -d --no-show-raw-insn):
#     NAME BYTES        or        NAME ? WHY
# for each function whose name is as the pattern `wanted` says. Every push and every lowering of the stack pointer in a function is
# taken as made on each path, and a jump to another function as a call: the bound can be above what any path needs, never below.
# A function is known by its address, since two objects may have a name in common.

function number(hex,   value, i) {
    value = 0
    for (i = 1; i <= length(hex); i++) value = value * 16 + index("0123456789abcdef", substr(hex, i, 1)) - 1
    return value
}

# A number of 64 bits, printed in hex without its sign. Those of a frame fit in 32.
function is_negative(hex) { return length(hex) == 16 && hex ~ /^f/ }
function negated(hex) { return 4294967296 - number(substr(hex, 9)) }

# The bytes by which a line with a constant lowers the stack pointer, or -1 where it has no constant.
function lowered(line,   hex) {
    hex = line
    if (!sub(/.*\$0x/, "", hex)) return -1
    sub(/,%rsp.*/, "", hex)
    if (line ~ /\tsub /) return is_negative(hex) ? 0 : number(hex)
    if (line ~ /\tadd /) return is_negative(hex) ? negated(hex) : 0
    return negated(hex) # what aligns the stack
}

# The start of the function that a line like `call 403470 <name+0x60>` goes to.
function target(line,   address, offset) {
    address = offset = line
    sub(/ <.*/, "", address)
    sub(/.* /, "", address)
    if (!sub(/.*\+0x/, "", offset)) return number(address)
    sub(/>.*/, "", offset)
    return number(address) - number(offset)
}

function note_call(line,   callee) {
    callee = target(line)
    if (callee == current) {
        if (line ~ /[\t ]call/) unknown[current] = "a call of itself"
        return
    }
    if ((current, callee) in seen) return
    seen[current, callee] = 1
    callees[current] = callees[current] " " callee
}

/^[0-9a-f]+ <.*>:$/ {
    current = number($1)
    name[current] = substr($2, 2, length($2) - 3)
    if (name[current] ~ wanted) asked[++asked_count] = current
    next
}
/\tpush/ { frame[current] += 8 }
/\t(sub|add|and) .*,%rsp$/ {
    bytes = lowered($0)
    if (bytes < 0) unknown[current] = "a frame of no fixed size"
    else frame[current] += bytes
}
/\tlea .*,%rsp$/ && !/\(%rbp\),%rsp$/ { unknown[current] = "a frame of no fixed size" }
/[\t ]callq? +\*/ { unknown[current] = "an indirect call" }
/[\t ](call|j)[a-z]* +[0-9a-f]+ </ { note_call($0) }

# -1 where it cannot be said: `reason` then has why.
function bound(start,   list, count, i, deepest, one) {
    if (start in known) return known[start]
    if (start in unknown) { reason = unknown[start] " in " name[start]; return -1 }
    if (start in entered) { reason = "a circle of calls through " name[start]; return -1 }
    entered[start] = 1
    count = split(callees[start], list, " ")
    deepest = 0
    for (i = 1; i <= count; i++) {
        one = bound(list[i])
        if (one < 0) return -1
        if (one > deepest) deepest = one
    }
    delete entered[start]
    known[start] = 8 + frame[start] + deepest
    return known[start]
}

END {
    for (a = 1; a <= asked_count; a++) {
        split("", entered)
        bytes = bound(asked[a])
        print name[asked[a]], (bytes < 0 ? "? " reason : bytes)
    }
}

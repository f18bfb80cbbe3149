# Reads the counts, for the programs that write them. Lines have tabs between their parts:
#     region NUMBER INSTRUCTIONS LOADED STORED                  of the plugin
#     vector REGION TIMES                                       its instructions that use vector registers, where there are any
#     memory REGION TIMES                                       its instructions in memcpy and the like, where there are any
#     unit BYTES BYTES                                          the port's, then plain C's
#     empty REGION STACK                                        a call of a function that only returns
#     call GROUP NAME TITLE P ANSWER REGION STACK REGION STACK   the port's region and stack, then plain C's; P is 0 where it has no part
#     frame SIDE FUNCTION BYTES                                 of frames.awk
#     sections SIDE CODE CONSTANTS UNWINDING WRITTEN            of sections.awk
#     symbols SIDE NAME..                                       that are undefined

BEGIN { FS = "\t" }

$1 == "region" { instructions[$2] = $3; loaded[$2] = $4; stored[$2] = $5 }
$1 == "vector" { vector[$2] = $3 }
$1 == "memory" { memory[$2] = $3 }
$1 == "unit" { unit["port"] = $2; unit["plain"] = $3 }
$1 == "empty" { empty = $2; empty_stack = $3 }
$1 == "frame" {
    if ($4 ~ /^\?/) not_bounded[$2, $3] = substr($4, 3)
    frames[$2] = frames[$2] " " $3
    bound[$2, $3] = $4 + 0
}
$1 == "sections" { code[$2] = $3; constants[$2] = $4; unwinding[$2] = $5; written[$2] = $6 }
$1 == "symbols" { for (i = 3; i <= NF; i++) if ($i != "") symbols[$2] = symbols[$2] " " $i }
$1 == "call" {
    calls++
    group[calls] = $2; name[calls] = $3; title[calls] = $4; packet[calls] = $5; answer[calls] = $6
    port[calls] = $7; port_stack[calls] = $8; plain[calls] = $9; plain_stack[calls] = $10
}

function require_whole() {
    if (calls != 0 && instructions[empty] != 0) return
    print "count: the counts are not whole" > "/dev/stderr"
    exit 2
}

# 1234 as 1,234.
function grouped(n,   text) {
    text = ""
    n = sprintf("%d", n)
    while (length(n) > 3) {
        text = "," substr(n, length(n) - 2) text
        n = substr(n, 1, length(n) - 3)
    }
    return n text
}

# Of call `i`, the port's instructions to plain C's.
function ratio(i) { return sprintf("%.2f", instructions[port[i]] / instructions[plain[i]]) }

# Packets that are taken or sent, of either size.
function is_done_packet(i) { return group[i] ~ /^Bulk/ && answer[i] == 0 }

# The deepest stack of the calls whose group is as the pattern says.
function deepest(stack, pattern,   i, most) {
    for (i = 1; i <= calls; i++) if (group[i] ~ pattern && stack[i] + 0 > most) most = stack[i] + 0
    return most
}

# What the frames in the code say of a side's functions whose name is as the pattern says; or why it is not known, in `reason`, and -1.
function deepest_frame(side, pattern,   list, count, i, most) {
    count = split(frames[side], list, " ")
    for (i = 1; i <= count; i++) {
        if (list[i] !~ pattern) continue
        if ((side, list[i]) in not_bounded) { reason = list[i] ": " not_bounded[side, list[i]]; return -1 }
        if (bound[side, list[i]] > most) most = bound[side, list[i]]
    }
    if (most == 0) { reason = "no such function is found in the code"; return -1 }
    return most
}

# Holds the counts of one build to bench/limits, which the file `limits` names: writes a line of Markdown for each that is over its limit, and for
# each case or size that one of the two does not have, and exits 1 where there is such a line. With `make` it writes lines for bench/limits
# instead, each limit three percent above what was counted. Behind facts.awk.
#
# `build` is shipped, one-memcpy or no-vectors: the first has all cases and the sizes, the others the packets of 512 bytes.

BEGIN {
    count = split("instructions ratio loaded stored stack", what, " ")
    if (!make) read_limits()
}

function fail(message) {
    print "count: " message > "/dev/stderr"
    failed = 1
    exit 2
}

function read_limits(   line, words, n, i) {
    while ((getline line < limits) > 0) {
        sub(/#.*/, "", line)
        n = split(line, words, " ")
        if (n == 0) continue
        for (i = 3; i <= n; i++) if (words[i] !~ /^[0-9]+(\.[0-9]+)?$/) fail("bench/limits: \"" line "\" has a limit that is no number")
        if (n == 3 && words[1] == "size") most["size", words[2]] = words[3]
        else if (n == count + 2) for (i = 1; i <= count; i++) most[words[1], words[2], what[i]] = words[i + 2]
        else fail("bench/limits: \"" line "\" is neither \"size NAME BYTES\" nor \"BUILD CASE\" with " count " limits")
        if (words[1] == build || words[1] == "size" && build == "shipped") open[words[1] " " words[2]]
        lines++
    }
    if (lines == 0) fail("there is no bench/limits, or it has no limit: get it back and run this again")
}

function figure(i, name) {
    if (name == "instructions") return instructions[port[i]]
    if (name == "ratio") return ratio(i)
    if (name == "loaded") return loaded[port[i]]
    if (name == "stored") return stored[port[i]]
    return port_stack[i]
}

function say(one, at_most, found) {
    print "| " one " | " at_most " | " found " |"
    over = 1
}

function hold(one, key, found) {
    if (found + 0 > most[key] + 0) say(one, most[key], found)
}

function hold_case(i,   j) {
    if (!((build, name[i], what[1]) in most)) {
        say("`" name[i] "`, " build, "no line", "`bench/count --limits` writes one")
        return
    }
    for (j = 1; j <= count; j++) hold("`" name[i] "`, " build ": " what[j], build SUBSEP name[i] SUBSEP what[j], figure(i, what[j]))
    delete open[build " " name[i]]
}

function hold_size(one, found) {
    if (!(("size", one) in most)) say("size: " one, "no line", "`bench/count --limits` writes one")
    else hold("size: " one, "size" SUBSEP one, found)
    delete open["size " one]
}

# Three percent more, rounded up to a multiple of `step`.
function above(found, step,   n) {
    n = found * 1.03 / step
    return (n == int(n) ? n : int(n) + 1) * step
}

function write_case(i) {
    printf "%-10s %-20s %6d %6.2f %6d %6d %6d\n", build, name[i], above(figure(i, "instructions"), 1), above(figure(i, "ratio"), 0.01),
        above(figure(i, "loaded"), 1), above(figure(i, "stored"), 1), above(figure(i, "stack"), 8)
}

function treat_size(one, found, step) {
    if (make) printf "%-10s %-20s %6d\n", "size", one, above(found, step)
    else hold_size(one, found)
}

END {
    if (failed) exit 2
    require_whole()
    for (i = 1; i <= calls; i++) {
        if (build != "shipped" && (!is_done_packet(i) || packet[i] != 512)) continue
        if (make) write_case(i)
        else hold_case(i)
    }
    if (build == "shipped") {
        treat_size("code", code["port"], 1)
        treat_size("constants", constants["port"], 1)
        treat_size("written", written["port"], 1)
        treat_size("unit", unit["port"], 1)
        treat_size("frames", deepest_frame("port", ""), 8)
    }
    for (one in open) say(one, "a line", "no such case or size")
    exit over
}

# Writes the limits as Markdown, and what was found. A figure that is over its limit by up to a tenth is shown as such; where one is further
# over, the exit is 1. Behind facts.awk.
BEGIN {
    memory_functions = "^(memcpy|memmove|memset|memcmp|bcmp|memchr)$"
    tenth = 1.1
    add("out", 1.35, "accepted OUT packets with data, P = 64, and short ones")
    add("in", 1.35, "sent IN packets, P = 64, whole and empty ones too")
    add("interrupt", 1.35, "Interrupt-IN polls that bring a packet")
    add("request", 1.80, "REQUEST and TRIGGER")
    add("refused", 1.5, "refused packets and polls")
    add("messages", 1.5, "take and offer")
    add("setup", 2.2, "setup packets")
    add("small", 1.3, "set status, panel and suspend")
    add("large", 1.0, "accepted and sent packets, P = 512, as shipped")
    missed = 0
}

function add(class, most, what) {
    classes[++class_count] = class
    most_ratio[class] = most
    described[class] = what
}

# Which limit is on a call's instructions; none is on those that fill a whole unit with zeros.
function class_of(i) {
    if (group[i] ~ /^Setup/) return "setup"
    if (name[i] ~ /^(take|offer)-/) return "messages"
    if (name[i] ~ /^(set-status(-asking)?|panel|suspend)$/) return "small"
    if (group[i] !~ /^(Bulk|Interrupt)/) return ""
    if (answer[i] != 0) return "refused"
    if (group[i] ~ /^Interrupt/) return "interrupt"
    if (name[i] ~ /^out-(request|trigger)$/) return "request"
    if (packet[i] == 512) return "large"
    return group[i] ~ /OUT/ ? "out" : "in"
}

# The call of the class with the worst ratio.
function worst_of(class,   i, worst) {
    for (i = 1; i <= calls; i++) if (class_of(i) == class && (!worst || ratio(i) + 0 > ratio(worst) + 0)) worst = i
    if (worst) return worst
    print "count: there is no call that the limit on " described[class] " is about" > "/dev/stderr"
    exit 2
}

# The found number and its limit are what the table shows of them.
function verdict(found, most) {
    found += 0
    if (found <= most) return "PASS"
    if (found <= most * tenth + 0.000001) return sprintf("over by %d %%", most_of(1, sprintf("%.0f", (found / most - 1) * 100)))
    missed = 1
    return "FAIL"
}

function most_of(one, other) { return one + 0 > other + 0 ? one + 0 : other + 0 }

function write_limit(what, most, found, result) { print "| " what " | " most " | " found " | " result " |" }

function write_bytes(what, most, found) { write_limit(what ", bytes", grouped(most), grouped(found), verdict(found, most)) }

function write_ratio(class,   worst) {
    worst = worst_of(class)
    write_limit("instructions to plain C's: " described[class], sprintf("%.2f", most_ratio[class]), ratio(worst) " (`" name[worst] "`)",
        verdict(ratio(worst), most_ratio[class]))
}

# What was seen, or what the frames say, whichever is more.
function write_stack(what, most, groups, functions,   frame) {
    frame = deepest_frame("port", functions)
    if (frame < 0) {
        missed = 1
        write_limit(what ", bytes", grouped(most), "not known: " reason, "FAIL")
    } else
        write_bytes(what, most, most_of(frame, deepest(port_stack, groups)))
}

function write_symbols(   list, count, i, strangers) {
    count = split(symbols["port"], list, " ")
    for (i = 1; i <= count; i++) if (list[i] !~ memory_functions) strangers = strangers " " list[i]
    if (strangers != "") missed = 1
    write_limit("symbols from outside: memory functions, so no heap", "", strangers == "" ? "no other" : "also" strangers, strangers == "" ? "PASS" : "FAIL")
}

END {
    require_whole()
    print ""
    print "| Limit | At most | Found | |"
    print "|---|--:|--:|---|"
    for (i = 1; i <= class_count; i++) write_ratio(classes[i])
    write_stack("stack of a packet or a poll", 256, "^(Bulk|Interrupt)", "^tmc_(bulk|interrupt)_")
    write_stack("stack of any call", 400, "", "")
    write_bytes("code", 15000, code["port"])
    write_bytes("the unit", 2144, unit["port"])
    write_bytes("data that is written", 0, written["port"])
    write_symbols()
    exit missed
}

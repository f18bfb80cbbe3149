# Writes the counts of all calls, and the sizes, as Markdown. Behind facts.awk.

function write_group(first,   i) {
    print ""
    print "| " group[first] " | Case | P | Answer | Instructions: port | plain C | port / C | Of them vector: port | plain C | Loaded: port | plain C | Stored: port | plain C | Stack: port | plain C |"
    print "|---|---|--:|--:|--:|--:|--:|--:|--:|--:|--:|--:|--:|--:|--:|"
    for (i = first; i <= calls && group[i] == group[first]; i++) write_call(i)
    return i
}

function write_call(i,   p, c) {
    p = port[i]
    c = plain[i]
    printf "| %s | `%s` | %s | %d | %s | %s | %s |", title[i], name[i], packet[i] ? packet[i] : "-", answer[i], grouped(instructions[p]),
        grouped(instructions[c]), ratio(i)
    printf " %s | %s | %s | %s | %s | %s | %s | %s |\n", grouped(vector[p]), grouped(vector[c]), grouped(loaded[p]), grouped(loaded[c]),
        grouped(stored[p]), grouped(stored[c]), grouped(port_stack[i]), grouped(plain_stack[i])
}

function bound_text(side,   bytes) {
    bytes = deepest_frame(side, "")
    return bytes < 0 ? "not known" : grouped(bytes)
}

function symbols_text(side,   text) {
    text = symbols[side]
    if (text == "") return "none"
    gsub(/ [^ ]+/, ", `&`", text)
    gsub(/` /, "`", text)
    return substr(text, 3)
}

function write_row(what, port_value, plain_value) { print "| " what " | " port_value " | " plain_value " |" }

function write_sizes() {
    print ""
    print "| Bytes | Port | Plain C |"
    print "|---|--:|--:|"
    write_row("the unit", grouped(unit["port"]), grouped(unit["plain"]))
    write_row("code", grouped(code["port"]), grouped(code["plain"]))
    write_row("constants", grouped(constants["port"]), grouped(constants["plain"]))
    write_row("tables for unwinding, which a controller's link drops", grouped(unwinding["port"]), grouped(unwinding["plain"]))
    write_row("data that is written: `.data`, `.bss`", grouped(written["port"]), grouped(written["plain"]))
    write_row("deepest stack of the calls above", grouped(deepest(port_stack, "")), grouped(deepest(plain_stack, "")))
    write_row("deepest stack of any path, by the frames in the code", bound_text("port"), bound_text("plain"))
    write_row("symbols from outside", symbols_text("port"), symbols_text("plain"))
}

END {
    require_whole()
    printf "A call that does nothing counts %d instructions (the call and the return), %d bytes loaded, %d stored and %d of stack. It is in every number here.\n",
        instructions[empty], loaded[empty], stored[empty], empty_stack
    for (i = 1; i <= calls;) i = write_group(i)
    write_sizes()
}

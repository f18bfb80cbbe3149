# Writes the packets of 512 bytes that are taken or sent as one table of Markdown, under `heading`. Behind facts.awk.
END {
    require_whole()
    print ""
    print "| P = 512, " heading " | Case | Instructions: port | plain C | port / C | Of them vector: port | plain C | In memcpy: port | plain C |"
    print "|---|---|--:|--:|--:|--:|--:|--:|--:|"
    for (i = 1; i <= calls; i++) {
        if (!is_done_packet(i) || packet[i] != 512) continue
        p = port[i]
        c = plain[i]
        printf "| %s | `%s` | %s | %s | %s | %s | %s | %s | %s |\n", title[i], name[i], grouped(instructions[p]), grouped(instructions[c]), ratio(i),
            grouped(vector[p]), grouped(vector[c]), grouped(memory[p]), grouped(memory[c])
    }
}

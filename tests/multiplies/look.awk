# Reads what objdump -dtr writes of an archive for x86-64, and names each instruction that multiplies, divides or cannot be read, each use of something
# that the archive does not have (but memcpy and memset), and each function of `wanted` that is not among what was read. The exit is 1 where one is named.
# Behind all that, it says how much it has read.

function name(what) {
    print member ": " what
    found = 1
}

/file format/ {
    member = $1
    sub(/:$/, "", member)
    if ($NF != "elf64-x86-64") name("is for " $NF ", and which instructions multiply there is not said in tests/multiplies/look.awk: add them")
    next
}

# A symbol: value, flags, section, size, name.
/^[0-9a-f]+ .*\t[0-9a-f]+ / {
    if ($0 !~ /\*UND\*/) has[$NF]
    next
}

/^[0-9a-f]+ <.*>:$/ {
    place = substr($2, 2, length($2) - 3)
    functions++
    read[place]
    next
}

# What the linker puts into the instruction before: address, kind, symbol with a number added.
/: R_X86_64_/ {
    symbol = $3
    sub(/[-+]0x[0-9a-f]+$/, "", symbol)
    if (symbol ~ /^\./) next
    used[++uses] = symbol
    user[uses] = place
    in_member[uses] = member
    next
}

/^ +[0-9a-f]+:\t/ {
    instructions++
    text = $0
    sub(/^[^\t]*\t/, "", text)
    sub(/ *<.*/, "", text)
    if (text ~ /mul|div|madd|msub|^dpp|^vdpp|vpdp|\(bad\)/) name(place " has the instruction: " text)
}

END {
    for (i = 1; i <= uses; i++)
        if (!(used[i] in has) && used[i] !~ /^(memcpy|memset)$/) {
            member = in_member[i]
            name(user[i] " uses " used[i] ", which is neither in the library nor memcpy nor memset")
        }
    count = split(wanted, names, " ")
    for (i = 1; i <= count; i++)
        if (!(names[i] in read)) name(names[i] " of include/tewennos.h is not there")
    if (count == 0) name("no function is wanted")
    printf "%d instructions of %d functions were read\n", instructions, functions
    exit found
}

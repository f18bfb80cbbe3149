# The bytes of an object's or an archive's sections by kind, from objdump -h: `code`, `constants`, `unwinding`, `written`.
$1 ~ /^[0-9]+$/ && NF >= 7 { section = $2; size = $3; next }
section != "" {
    bytes = 0
    for (i = 1; i <= length(size); i++) bytes = bytes * 16 + index("0123456789abcdef", substr(size, i, 1)) - 1
    if (/ALLOC/) {
        if (/CODE/) sum["code"] += bytes
        else if (!/READONLY/) sum["written"] += bytes
        else if (section ~ /^\.eh_frame|^\.note/) sum["unwinding"] += bytes
        else sum["constants"] += bytes
    }
    section = ""
}
END { print sum["code"] + 0, sum["constants"] + 0, sum["unwinding"] + 0, sum["written"] + 0 }

# shellcheck shell=bash disable=SC2154 # `me` is the script's
# How a command that proves is run, so that whoever waits for it sees how far it is. Sourced, by scripts that have gone to the root of the
# repository and have set `me`, the name that they speak under.
#
#     prove LOG CRATE COMMAND..     runs the command, which proves this crate and all that it uses. What it writes goes to LOG. Standard error says which
#                                   crate is begun, the how many-th of how many that is, and how long it has taken until then: one line that is written
#                                   anew on a terminal, and else a line for each crate. A crate below it that is up to date has no line. Where the
#                                   command fails, it is said which crate it failed at, where the log stands and what to do. The status is the
#                                   command's own.
#     time_since SECOND             how long ago that was, by the shell's SECONDS
#
# `prove_in` is the folder that has crates.txt, where it is not the root. rt begins each crate with a line of its log, which is how the crates are watched
# while rt is at work.

prove_in=.

time_since() { # SECOND
    local took=$((SECONDS - $1))
    if [ "$took" -lt 60 ]; then echo "$took s"; else printf '%d m %02d s\n' $((took / 60)) $((took % 60)); fi
}

# The crates that proving these takes, themselves among them, on one line. What crates.txt does not list is of the toolchain, and is proved.
crates_of() { # CRATES
    WANTED=$1 awk '
        function visit(name,   used, count, i) {
            if (!(name in uses) || name in seen) return
            seen[name]
            count = split(uses[name], used, " ")
            for (i = 1; i <= count; i++) visit(used[i])
            printf "%s ", name
        }
        { sub(/#.*/, "") }
        /:/ { name = $1; sub(/:.*/, "", name); sub(/^[^:]*:/, ""); uses[name] = $0 } # the word staticlib may stand behind the name
        END {
            count = split(ENVIRON["WANTED"], wanted, " ")
            for (i = 1; i <= count; i++) visit(wanted[i])
        }' "$prove_in/crates.txt"
}

# The crates that rt has begun, by its log, each once and in its order.
begun() { sed -nE 's/^rt: chose --jobs [0-9]+ for ([a-z0-9_]+)$/\1/p' "$1" 2>/dev/null | awk '!($0 in seen) { seen[$0]; print }'; } # LOG

# Goes on until it is stopped, or until the script has ended.
watch_crates() { # LOG TOTAL
    local crate line count told=0
    while kill -0 $$ 2>/dev/null; do
        count=0
        while read -r crate; do
            count=$((count + 1))
            if [ "$count" -le "$told" ]; then continue; fi
            told=$count
            line="$me: $count of $2 crates, $(time_since "$began"): $crate"
            if [ -t 2 ]; then printf '\r\033[K%s' "${line:0:$((${COLUMNS:-80} - 1))}" >&2; else echo "$line" >&2; fi
        done < <(begun "$1")
        sleep 0.3 2>/dev/null
    done
}

# What a log has of errors, or else its end, in lines that a terminal can show.
show_log() { { grep -m 4 -E ': error|: not proved|: no proof' "$1" || tail -n 5 "$1"; } | cut -c 1-300 >&2; } # FILE

say_failure() { # LOG STATUS
    local crate
    crate=$(begun "$1" | tail -n 1)
    show_log "$1"
    if [ -n "$crate" ]; then
        echo "$me: the crate $crate is not proved, or not built: $1 has all that the prover says." >&2
        echo "$me: mend crates/$crate, or get it back as it was committed, and run this again" >&2
    else
        echo "$me: rt ended with status $2 and named no crate: $1 has all that it said. Mend what it speaks of, and run this again" >&2
    fi
}

prove() { # LOG CRATE COMMAND..
    local log=$1 began=$SECONDS total status=0 count watcher
    mkdir -p "$(dirname "$log")"
    total=$(crates_of "$2" | wc -w)
    : >"$log"
    watch_crates "$log" "$total" &
    watcher=$!
    "${@:3}" </dev/null >"$log" 2>&1 || status=$?
    kill "$watcher" 2>/dev/null || true
    wait "$watcher" 2>/dev/null || true
    count=$(begun "$log" | wc -l)
    if [ "$count" != 0 ] && [ -t 2 ]; then printf '\r\033[K' >&2; fi
    if [ "$status" != 0 ]; then
        say_failure "$log" "$status"
    elif [ "$count" != 0 ]; then
        echo "$me: all $total crates are proved, $count of them looked at again; $(time_since "$began")" >&2
    fi
    return "$status"
}

# shellcheck shell=sh
# sigrok asks each instrument that it finds for its name. It knows none of this one's. The server's log has what came and what was answered.
# shellcheck source=tests/hosts/jobs/words.sh
. /jobs/words.sh

scan() { # WORD..
    note_log
    sigrok-cli "$@" --scan >/run/found 2>/run/complaints
    say "sigrok-cli $* --scan: status $?, instruments found: $(grep ' - ' /run/found | grep -c -v '^demo')"
    sleep 0.5
    new_calls >/run/calls
}

# The bytes of *IDN? in a message that was accepted, and of the answer's first word in a packet that went.
look_for_question() {
    if grep -q '^out 01.*2a49444e3f0a0000 #= 0' /run/calls; then say "the server's log has its *IDN?"; else wrong "the server's log has no *IDN? from it"; fi
    if grep -q '^in #= 0 02.*546577656e6e6f73' /run/calls; then say "and the answer, which it fetched"; else wrong "the server's log has no answer"; fi
}

title "A scan by one of sigrok's drivers: nothing is left open"
scan --driver rigol-ds
look_for_question
try_whole_command 39000

# One of the drivers asks for what is no question here, and goes away while it waits for the answer.
title "A scan by all of sigrok's drivers: a read is left open"
scan
look_for_question
try "echo 'SETP?'" send 'SETP?'
try_whole_command --clear 39001

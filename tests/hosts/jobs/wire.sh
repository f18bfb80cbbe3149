# shellcheck shell=sh disable=SC2154 # `folder` is set in jobs/bench.sh
# What the server's log has of the jobs before: what no host is told, or what the driver keeps to itself.
# shellcheck source=tests/hosts/jobs/words.sh
. /jobs/words.sh

count() { # JOB PATTERN
    calls "$1" | grep -c -E "$2"
}

# What the thermostat itself says that it does.
acts() { # JOB
    sed -n 's/.* thermostat  \(is triggered\|pulses its light\)$/\1/p' "/out/$folder/$1.wire" | tr '\n' ';'
}

title "What the server's log has"
say "requests: triggers and pulses: $(acts requests)"
say "requests: REN on, lockout, go to local, REN off: $(calls requests | grep -E '^setup a1a[012]' | sed 's/.*#= //' | tr '\n' ';')"
say "packets: triggers and pulses: $(acts packets)"
# The job's own abort has tag 255.
say "faults: aborts by the driver that have another tag than the read (81): $(calls faults | grep -v '^setup a203ff' | grep -c '^setup a203.*#= 0 81')"
say "faults: REQUESTs while a read is open (13): $(count faults '^out 02.* #= 13$')"
say "visa: aborts with the right tag (01): $(count visa '^setup a203..0082000200 #= 0 01')"

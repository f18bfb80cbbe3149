# shellcheck shell=sh disable=SC2154 # `folder` is set in jobs/bench.sh
# What the jobs in shell say. Sourced.
#
#     title WORDS                  a scene begins
#     say WORDS                    what was done and seen
#     try NAME COMMAND..           says what the command wrote, also to standard error, or else that it is done
#     send TEXT                    writes a line to the device file
#     try_whole_command WORD..     as the program `command` has it
#     calls NAME                   the calls that the server's log has of a job that is done, in the form of ./run replay
#     note_log, new_calls          from here on; the calls since then

title() { echo "$*"; }
say() { echo "  $*"; }
wrong() { echo "  WRONG: $*"; }

try() { # NAME COMMAND..
    name=$1
    shift
    "$@" >/run/said 2>&1
    status=$?
    said=$(tr '\n' ';' </run/said | sed 's/;$//; s/;/; /g')
    if [ "$status" = 0 ]; then say "$name: ${said:-done}"; else say "$name: ${said:-nothing}, and its status is $status"; fi
}

# Where there is no device, a file must not be made in its place.
send() { [ -c /dev/usbtmc0 ] && /usr/bin/echo "$1" >/dev/usbtmc0; }
try_whole_command() { /jobs/command "$@"; }
note_log() { noted=$(wc -l <"/out/$folder/thermostat.log"); }
new_calls() { sed -n "$((noted + 1)),\$ s/.* | //p" "/out/$folder/thermostat.log"; }
calls() { sed -n 's/.* | //p' "/out/$folder/$1.wire"; }

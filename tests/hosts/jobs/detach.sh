# shellcheck shell=sh disable=SC2154 # `port` is set in jobs/bench.sh
# The device is unplugged while a read waits, and in the middle of a message, and plugged in again.
# shellcheck source=tests/hosts/jobs/words.sh
. /jobs/words.sh
# shellcheck source=tests/hosts/jobs/bench.sh
. /jobs/bench.sh

is_asked() { new_calls | grep -q '^out 02'; }

title "The device is unplugged while a program waits in a read"
note_log
/jobs/reader >/run/reader &
wait_until is_asked || wrong "it does not read"
detach && say "unplugged"
wait
cat /run/reader
attach "$port" && say "plugged in again"
try_whole_command 38000

title "The device is unplugged in the middle of a message, and plugged in again"
/jobs/half
detach && attach "$port" && say "unplugged and plugged in again"
try_whole_command 38001

# shellcheck shell=sh
# Programs that know nothing of a device: they open a file, write and read.
# shellcheck source=tests/hosts/jobs/words.sh
. /jobs/words.sh

title "echo and head, which reads once"
line="exec 3<>/dev/usbtmc0; echo '*IDN?' >&3; head -n 1 <&3; exec 3>&-"
try "$line" sh -c "$line"
try_whole_command 37000

# A device has no end of file: the second read of cat asks for an answer that nobody gives, and is left open.
title "echo and cat, which reads until nothing comes"
try "echo '*IDN?'" send '*IDN?'
try "cat" /usr/bin/cat /dev/usbtmc0
try "echo 'SETP?'" send 'SETP?'
try "cat" /usr/bin/cat /dev/usbtmc0
try_whole_command --clear 37001

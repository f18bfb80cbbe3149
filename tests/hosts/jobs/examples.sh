# shellcheck shell=sh
# The files of examples/hosts, as they stand there. The temperature is not always the same. In the end the room is at its setpoint.
# shellcheck source=tests/hosts/jobs/words.sh
. /jobs/words.sh
# shellcheck source=tests/hosts/jobs/bench.sh
. /jobs/bench.sh

# What udev makes of a device's file.
rights_by_udev() { # DEVICE FILE
    udevadm test --action=add "$1" >/run/rules 2>&1 || echo "udevadm has status $?,"
    stat -c 'mode %a, group %G' "$2"
}

title "query.py, by PyVISA"
python3 /jobs/examples/query.py | sed 's/^\(temperature: \)[0-9][0-9]\.[0-9][0-9][0-9]$/\1NN.NNN/; s/^/  /'
bind_driver

# Without the rule both are the group root's.
title "60-thermostat.rules, by udev"
mkdir -p /etc/udev/rules.d
cp /jobs/examples/60-thermostat.rules /etc/udev/rules.d/
grep -q plugdev /etc/group || echo 'plugdev:x:46:' >>/etc/group
say "the device file: $(rights_by_udev /sys/class/usbmisc/usbtmc0 /dev/usbtmc0)"
usb=/sys/bus/usb/devices/$(interface | sed 's/:.*//')
say "the device itself: $(rights_by_udev "$usb" "/dev/bus/usb/$(printf '%03d/%03d' "$(cat "$usb/busnum")" "$(cat "$usb/devnum")")")"

title "service.py, by the driver"
for message in "SETP 30" HEAT; do
    try "service.py /dev/usbtmc0 '$message'" python3 /jobs/examples/service.py /dev/usbtmc0 "$message"
done
try_whole_command 44000

# shellcheck shell=sh disable=SC2154 # `port` is set in jobs/bench.sh
# What usbip and lsusb show of the device, without the names that they take from a table of their own, and the speed that Linux has found.
echo "What usbip list shows"
usbip --tcp-port "$port" list --remote 10.0.2.2 | sed -n 's/^ *\(1-1\): .*\((.*)\)$/  \1 \2/p; s/^ *:  0 - .*\((.*)\)$/  interface \1/p'
echo "What lsusb shows"
lsusb -v -d 1209:0001 | awk '
    $1 ~ /^(bcdUSB|idVendor|idProduct|bMaxPacketSize0|bNumConfigurations|bNumInterfaces)$/ { print "  " $1, $2 }
    $1 ~ /^i(Manufacturer|Product|Serial)$/ { name = $1; sub(/^ *[^ ]+ +[0-9]+ /, ""); print "  " name, $0 }
    $1 ~ /^(bInterfaceClass|bInterfaceSubClass|bInterfaceProtocol|bNumEndpoints)$/ { print "    " $1, $2 }
    $1 == "bEndpointAddress" { print "    " $1, $2 }
    $1 ~ /^(wMaxPacketSize|bInterval)$/ || /Transfer Type/ { gsub(/ +/, " "); print "     " $0 }'
echo "  the bus: $(cat /sys/class/usbmisc/usbtmc0/device/../speed) Mbit/s"

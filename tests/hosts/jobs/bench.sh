# shellcheck shell=sh
# How a configuration is played in the guest. Sourced by its first program, and by jobs that attach and detach.
#
#     play FOLDER PORT ECHO_PORT    what the jobs say goes to /out/FOLDER/output.txt; each has its standard error in JOB.err, and its lines of the server's
#                                   log in JOB.wire
#     attach PORT                   to the server on that port; ends when the driver has the device
#     detach
#     bind_driver, unbind_driver    gives the driver the device, and takes it away

# Up to ten seconds.
wait_until() { # COMMAND..
    for _ in $(seq 100); do
        if "$@"; then return 0; fi
        sleep 0.1
    done
    return 1
}

# The numbers of the ports that are in use, which have 006 as their status.
ports_in_use() { sed -n 's/^[a-z]* *0*\([0-9][0-9]*\) 006 .*/\1/p' /sys/devices/platform/vhci_hcd.0/status; }
is_attached() { [ -c /dev/usbtmc0 ]; }
is_detached() { ! is_attached && [ -z "$(ports_in_use)" ]; }

attach() { # PORT
    usbip --tcp-port "$1" attach --remote 10.0.2.2 --busid 1-1 >&2 || return 1
    wait_until is_attached || { echo "attach: the driver has no device after ten seconds" >&2 && return 1; }
}

detach() {
    for number in $(ports_in_use); do usbip detach --port "$number" >&2; done
    wait_until is_detached || { echo "detach: the device is still there after ten seconds" >&2 && return 1; }
}

# The interface of the device, as the drivers know it.
interface() { basename "$(dirname "$(grep -l -x fe /sys/bus/usb/devices/*/bInterfaceClass)")"; }
bind_driver() { interface >/sys/bus/usb/drivers/usbtmc/bind && wait_until is_attached; }
unbind_driver() { interface >/sys/bus/usb/drivers/usbtmc/unbind; }

say_wrong() { echo "  WRONG: $*" >>"/out/$folder/output.txt"; }
seconds() { cut -d . -f 1 /proc/uptime; }

run_job() { # NAME COMMAND..
    name=$1
    shift
    began=$(seconds)
    echo "guest: $folder: $name"
    echo "== $name" >>"/out/$folder/output.txt"
    log_at=$(wc -l <"/out/$folder/$log.log")
    is_attached || bind_driver || say_wrong "the driver has no device" # libusb takes the driver away
    "$@" >>"/out/$folder/output.txt" 2>"/out/$folder/$name.err" || say_wrong "the job ends with status $?"
    tail -n "+$((log_at + 1))" "/out/$folder/$log.log" >"/out/$folder/$name.wire"
    echo "guest: $folder: $name took $(($(seconds) - began)) s"
}

play() { # FOLDER PORT ECHO_PORT
    export folder="$1" port="$2" log=thermostat
    attach "$2" || { say_wrong "the device is not attached" && return; }
    run_job lsusb /bin/sh /jobs/lsusb.sh
    for job in messages requests service faults; do run_job "$job" "/jobs/$job"; done
    run_job packets python3 /jobs/packets.py
    run_job visa python3 /jobs/visa.py
    for job in examples shell sigrok events detach wire; do run_job "$job" /bin/sh "/jobs/$job.sh"; done
    detach
    log='echo'
    attach "$3" || { say_wrong "the device is not attached" && return; }
    run_job rounds /jobs/rounds 1000
    detach
}

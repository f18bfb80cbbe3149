#!/usr/bin/env python3
"""Waits until the thermostat asks for service, by the kernel's driver, and says why it does.

usage: service.py DEVICE [MESSAGE]    for example: service.py /dev/usbtmc0 "SETP 27.5"

The message is sent first. The room comes to its setpoint after a while, and then the thermostat asks.
"""

import fcntl
import os
import select
import sys

GET_SRQ_STB = 0x80015B1B  # USBTMC_IOCTL_GET_SRQ_STB of linux/usb/tmc.h
SECONDS = 60
REASONS = {0x01: "the room is at its setpoint", 0x20: "the last message could not be carried out"}


def wait(device):
    """The status byte of the next service request, or None."""
    watch = select.poll()
    watch.register(device, select.POLLPRI)
    if not watch.poll(SECONDS * 1000):
        return None
    return fcntl.ioctl(device, GET_SRQ_STB, b"\0")[0]


def main():
    if len(sys.argv) not in (2, 3):
        sys.exit(__doc__)
    device = os.open(sys.argv[1], os.O_RDWR)
    if len(sys.argv) == 3:
        os.write(device, sys.argv[2].encode() + b"\n")
    status = wait(device)
    if status is None:
        sys.exit(f"no service request came in {SECONDS} seconds")
    print(f"status byte {status:02x}:", ", ".join(words for bit, words in REASONS.items() if status & bit))
    os.close(device)


if __name__ == "__main__":
    main()

"""What bad hosts send. Each function makes the bytes behind the import, all of what comes back for them, and how the connection ends.

A message that would set the setpoint is never whole here: the good host must find it as it was."""
import usbip

# The server closes the connection; the client does, and nothing more comes; the client does, while more may come.
SERVER_CLOSES, CLIENT_LEAVES, CLIENT_VANISHES = range(3)

CONFIGURE = usbip.control(1, usbip.SET_CONFIGURATION)
CONFIGURED = usbip.submitted(1, usbip.DONE)
ASK_DEVICE = usbip.control(9, usbip.GET_DEVICE)  # behind a bad command: what follows it is understood
TOLD_DEVICE = usbip.submitted(9, usbip.DONE, 18, usbip.DEVICE_DESCRIPTOR)
SET = b"SETP 66.666\n"


def any_number(chance):
    return chance.choice([0, 1, 10, 0x7FFFFFFF, 0x80000000, 0xFFFFFFFF, chance.getrandbits(32)])


# Nothing that can be understood.


def garbage(chance):
    first = bytes([chance.randrange(1, 256)])
    return first + chance.randbytes(chance.randrange(47, 600)), b"", SERVER_CLOSES


def unknown_command(chance):
    kind = chance.choice([0, 3, 4, 5, 0x101, 0x10000001, 0x80000001, 0xFFFFFFFF])
    return kind.to_bytes(4, "big") + usbip.submit(2, usbip.BULK_IN, 64)[4:], b"", SERVER_CLOSES


def wrong_device(chance):
    device = chance.choice([0, 1, 2, 0x10001, 0x10003, 0x20002, 0x02000100, 0xFFFFFFFF])
    sent = chance.choice([usbip.control(2, usbip.GET_DEVICE), usbip.unlink(3, 2)])
    return sent[:8] + device.to_bytes(4, "big") + sent[12:] + ASK_DEVICE, b"", SERVER_CLOSES


# Half messages.


def half_head(chance):
    whole = chance.choice([usbip.submit(2, usbip.BULK_OUT, 24, usbip.message(1, SET)), usbip.unlink(3, 2), usbip.control(2, usbip.GET_DEVICE)])
    return CONFIGURE + whole[: chance.randrange(1, usbip.HEAD)], CONFIGURED, CLIENT_LEAVES


def half_data(chance):
    data = usbip.message(1, SET)
    length = chance.choice([len(data), 512, 65536])
    return CONFIGURE + usbip.submit(2, usbip.BULK_OUT, length, data[: chance.randrange(len(data))]), CONFIGURED, CLIENT_LEAVES


# Lengths.


def huge_without_bytes(chance):
    """To the device: the server waits for the bytes. To the host: nobody has as many, and a poll waits."""
    length = chance.choice([65537, 0x7FFFFFFF, 0x80000000, 0xFFFFFFFF])
    case = chance.randrange(4)
    if case == 0:
        return CONFIGURE + usbip.submit(2, chance.choice([usbip.BULK_OUT, usbip.CONTROL_OUT, (7, 0)]), length, usbip.message(1, SET)), CONFIGURED, CLIENT_LEAVES
    if case == 1:
        return CONFIGURE + usbip.submit(2, usbip.BULK_IN, length) + usbip.unlink(3, 2), CONFIGURED + usbip.unlinked(3, usbip.UNLINKED), CLIENT_LEAVES
    if case == 2:
        return usbip.submit(2, (7, 1), length) + ASK_DEVICE, usbip.submitted(2, usbip.NO_ANSWER) + TOLD_DEVICE, CLIENT_LEAVES
    return usbip.control(2, usbip.GET_DEVICE, length), usbip.submitted(2, usbip.DONE, 18, usbip.DEVICE_DESCRIPTOR), CLIENT_LEAVES


def huge_with_bytes(chance):
    """The bytes come, and are not taken; what is behind them is understood. Or some of them come."""
    endpoint = chance.choice([usbip.BULK_OUT, usbip.CONTROL_OUT, (7, 0)])
    if chance.randrange(2):
        length = 65537 + chance.randrange(3000)
        return usbip.submit(2, endpoint, length, bytes(length)) + ASK_DEVICE, usbip.submitted(2, usbip.TOO_LONG) + TOLD_DEVICE, CLIENT_LEAVES
    return CONFIGURE + usbip.submit(2, endpoint, chance.choice([0x7FFFFFFF, 0xFFFFFFFF]), ASK_DEVICE * 6000), CONFIGURED, CLIENT_LEAVES


# Endpoints.


def unknown_endpoint(chance):
    endpoint = chance.choice(
        [(1, 1), (2, 0), (3, 0), (4, 0), (4, 1), (15, 1), (16, 0), (129, 1), (130, 1), (0x101, 0), (1, 2), (0x7FFFFFFF, 1), (0xFFFFFFFF, 0)]
    )
    data = chance.randbytes(chance.randrange(100)) if endpoint[1] == 0 else b""
    sent = CONFIGURE + usbip.submit(2, endpoint, len(data) or 64 * endpoint[1], data) + ASK_DEVICE
    return sent, CONFIGURED + usbip.submitted(2, usbip.NO_ANSWER) + TOLD_DEVICE, CLIENT_LEAVES


def isochronous(chance):
    """It is refused with all that follows it: bytes to the device, and 16 for each packet. More packets than USB/IP allows are no command."""
    packets = chance.choice([1, 2, 8, 1024, 1025, 0x7FFFFFFF, 0x80000000, 0xFFFFFFFE])
    endpoint = chance.choice([usbip.BULK_OUT, usbip.BULK_IN, usbip.CONTROL_IN, (5, 0), (5, 1)])
    data = bytes(chance.randrange(200)) if endpoint[1] == 0 else b""
    length = len(data) if endpoint[1] == 0 else chance.choice([0, 1024, 0xFFFFFFFF])
    head = usbip.submit(2, endpoint, length, data, packets=packets)
    if packets > 1024:
        return head + bytes(64), b"", SERVER_CLOSES
    return head + chance.randbytes(16) * packets + ASK_DEVICE, usbip.submitted(2, usbip.NO_ANSWER) + TOLD_DEVICE, CLIENT_LEAVES


def broken_messages(chance):
    """Packets that halt Bulk-OUT."""
    sent, returned = CONFIGURE, CONFIGURED
    wrong_inverse, unknown, tag_of_0 = b"\1\1\1\0" + bytes(8), b"\x09\1\xfe\0" + bytes(8), b"\1\0\xff\0\4\0\0\0\1\0\0\0abcd"
    bad = chance.choice([wrong_inverse, unknown, tag_of_0, b"\1", usbip.message(1, b"")[:11], b"\xff" * 512])
    for number in range(2, 2 + chance.randrange(1, 6)):
        sent += usbip.submit(number, usbip.BULK_OUT, len(bad), bad)
        returned += usbip.submitted(number, usbip.STALLED)
    return sent, returned, CLIENT_LEAVES


def unconfigured(chance):
    """Before SET_CONFIGURATION no endpoint but 0 works."""
    endpoint = chance.choice([usbip.BULK_OUT, usbip.BULK_IN, usbip.INTERRUPT_IN])
    data = usbip.message(1, SET) if endpoint == usbip.BULK_OUT else b""
    return usbip.submit(2, endpoint, len(data) or 64, data), usbip.submitted(2, usbip.STALLED), CLIENT_LEAVES


def bad_control(chance):
    """Directions and lengths that do not fit the setup packet, and requests that are none."""
    setup, length, endpoint, returned = chance.choice(
        [
            (usbip.GET_DEVICE, 18, usbip.CONTROL_OUT, usbip.submitted(2, usbip.DONE, 18)),
            (usbip.GET_DEVICE, 0, usbip.CONTROL_OUT, usbip.submitted(2, usbip.DONE, 0)),
            (usbip.SET_CONFIGURATION, 64, usbip.CONTROL_IN, usbip.submitted(2, usbip.DONE, 0)),
            (usbip.SET_CONFIGURATION, 65536, usbip.CONTROL_OUT, usbip.submitted(2, usbip.DONE, 65536)),
            (usbip.GET_DEVICE, 5, usbip.CONTROL_IN, usbip.submitted(2, usbip.DONE, 5, usbip.DEVICE_DESCRIPTOR[:5])),
            (usbip.GET_DEVICE, 0, usbip.CONTROL_IN, usbip.submitted(2, usbip.DONE, 0)),
            (usbip.GET_DEVICE[:6] + b"\4\0", 64, usbip.CONTROL_IN, usbip.submitted(2, usbip.DONE, 4, usbip.DEVICE_DESCRIPTOR[:4])),
            (usbip.GET_DEVICE[:6] + b"\0\0", 64, usbip.CONTROL_IN, usbip.submitted(2, usbip.DONE, 0)),
            (usbip.GET_DEVICE[:6] + b"\xff\xff", 0xFFFFFFFF, usbip.CONTROL_IN, usbip.submitted(2, usbip.DONE, 18, usbip.DEVICE_DESCRIPTOR)),
            (b"\x80\6\xff\3" + bytes(2) + b"\xff\0", 255, usbip.CONTROL_IN, usbip.submitted(2, usbip.STALLED)),
            (b"\xff" * 8, 65535, usbip.CONTROL_IN, usbip.submitted(2, usbip.STALLED)),
            (b"\x40" + bytes(7), 0, usbip.CONTROL_OUT, usbip.submitted(2, usbip.STALLED)),
        ]
    )
    data = bytes(length) if endpoint == usbip.CONTROL_OUT else b""
    return usbip.submit(2, endpoint, length, data, setup) + ASK_DEVICE, returned + TOLD_DEVICE, CLIENT_LEAVES


# Numbers.


def unlink_never_sent(chance):
    count = chance.randrange(1, 5)
    sent = b"".join(usbip.unlink(10 + number, any_number(chance)) for number in range(count))
    return sent + ASK_DEVICE, b"".join(usbip.unlinked(10 + number, usbip.DONE) for number in range(count)) + TOLD_DEVICE, CLIENT_LEAVES


def unlink_twice(chance):
    """Of one that waits, of an unlink, and of one that has ended."""
    number = chance.choice([0, 2, 0x7FFFFFFF, 0x80000000, 0xFFFFFFFF])
    sent = CONFIGURE + usbip.submit(number, usbip.BULK_IN, 64)
    returned = CONFIGURED
    for own, other, status in ((3, number, usbip.UNLINKED), (4, number, usbip.DONE), (5, 3, usbip.DONE), (6, 1, usbip.DONE)):
        sent += usbip.unlink(own, other)
        returned += usbip.unlinked(own, status)
    return sent + ASK_DEVICE, returned + TOLD_DEVICE, CLIENT_LEAVES


def same_number(chance):
    """An unlink takes one of them at a time."""
    number = any_number(chance)
    count = chance.randrange(2, 6)
    sent = CONFIGURE + usbip.submit(number, usbip.BULK_IN, 64) * count + usbip.unlink(number, number) * (count + 1)
    returned = CONFIGURED + usbip.unlinked(number, usbip.UNLINKED) * count + usbip.unlinked(number, usbip.DONE)
    sent += usbip.control(number, usbip.GET_DEVICE) * 2
    return sent, returned + usbip.submitted(number, usbip.DONE, 18, usbip.DEVICE_DESCRIPTOR) * 2, CLIENT_LEAVES


def too_many(chance):
    """The server holds 64 that wait, of whatever length."""
    more = chance.randrange(1, 60)
    length = chance.choice([0, 64, 4096, 0xFFFFFFFF])
    sent = CONFIGURE + b"".join(usbip.submit(number, usbip.BULK_IN, length) for number in range(2, 66 + more))
    returned = CONFIGURED + b"".join(usbip.submitted(number, usbip.OUT_OF_MEMORY) for number in range(66, 66 + more))
    return sent + usbip.unlink(1000, 65), returned + usbip.unlinked(1000, usbip.UNLINKED), CLIENT_LEAVES


# Gone in the middle.


def polls(chance):
    sent = b"".join(usbip.submit(number, usbip.BULK_IN, 64) for number in range(2, chance.randrange(3, 30)))
    return CONFIGURE + sent, CONFIGURED, CLIENT_VANISHES


def vanish(chance):
    """In the middle of a message, of a question and of an answer, and behind a message that was refused."""
    part = usbip.message(1, SET[:8], is_end=False)
    long = usbip.message(1, SET.ljust(52), size=600)
    asked = usbip.message(1, chance.choice([b"*IDN?\n", b"TEMP?\n", b"SETP?\n", b"SETP hot\n"]))
    sent = chance.choice([part, long, asked, None])
    if sent is not None:
        return CONFIGURE + usbip.submit(2, usbip.BULK_OUT, len(sent), sent), CONFIGURED + usbip.submitted(2, usbip.DONE, len(sent)), CLIENT_LEAVES
    sent = usbip.submit(2, usbip.BULK_OUT, len(asked), asked) + usbip.submit(3, usbip.BULK_OUT, 12, usbip.ask(2)) + usbip.submit(4, usbip.BULK_IN, 64)
    set_it = usbip.message(3, SET)
    return CONFIGURE + sent + usbip.submit(5, usbip.BULK_OUT, len(set_it), set_it[:20]), CONFIGURED, CLIENT_VANISHES

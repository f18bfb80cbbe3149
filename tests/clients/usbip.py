"""The messages of USB/IP 1.1.1, in bytes, and those of USBTMC that go with them."""
import struct

LIST, IMPORT = 0x8005, 0x8003
SUBMIT, UNLINK = 1, 2
DEVICE = 0x00010002

# How an import and a transfer end.
NO_SUCH_DEVICE, BUSY = 4, 2
DONE, OUT_OF_MEMORY, STALLED, NO_ANSWER, TOO_LONG, UNLINKED = 0, -12, -32, -71, -90, -104

# The endpoints, each as its number and its direction.
CONTROL_OUT, CONTROL_IN, BULK_OUT, BULK_IN, INTERRUPT_IN = (0, 0), (0, 1), (1, 0), (2, 1), (3, 1)


def request(operation, version=0x0111):
    return struct.pack(">HHI", version, operation, 0)


def import_request(bus_id=b"1-1"):
    return request(IMPORT) + struct.pack("32s", bus_id)


def import_refused(status):
    return struct.pack(">HHI", 0x0111, 0x0003, status)


DESCRIBED = struct.pack(">256s32sIIIHHH6B", b"/virtual/thermostat/1-1", b"1-1", 1, 2, 2, 0x1209, 1, 0x0100, 0, 0, 0, 1, 1, 1)
LIST_REPLY = struct.pack(">HHII", 0x0111, 0x0005, 0, 1) + DESCRIBED + bytes([0xFE, 3, 1, 0])
IMPORT_REPLY = struct.pack(">HHI", 0x0111, 0x0003, 0) + DESCRIBED

HEAD = 48
_HEAD = struct.Struct(">IIIII IIIII 8s")


def submit(number, endpoint, length, data=b"", setup=b"", flags=0, packets=0, device=DEVICE):
    """A transfer; `length` is what its head says, whatever `data` has."""
    return _HEAD.pack(SUBMIT, number, device, endpoint[1], endpoint[0], flags, length, 0, packets, 0, setup) + data


def unlink(number, unlinked, device=DEVICE):
    return _HEAD.pack(UNLINK, number, device, 0, 0, unlinked, 0, 0, 0, 0, b"")


def control(number, setup, length=None, endpoint=None):
    """A control transfer without bytes to the device, with the length and direction that its setup packet has where none are said."""
    return submit(number, endpoint or (0, setup[0] >> 7), setup[6] | setup[7] << 8 if length is None else length, setup=setup)


def submitted(number, status, length=0, data=b""):
    """What comes back for a submit."""
    return _HEAD.pack(3, number, 0, 0, 0, status & 0xFFFFFFFF, length, 0, 0, 0, b"") + data


def unlinked(number, status):
    return _HEAD.pack(4, number, 0, 0, 0, status & 0xFFFFFFFF, 0, 0, 0, 0, b"")


def read_head(head):
    """Kind, number, status and length of what comes back."""
    kind, number, status, length = struct.unpack(">II12xiI20x", head)
    return kind, number, status, length


# Setup packets.
SET_CONFIGURATION = bytes.fromhex("0009010000000000")
GET_DEVICE = bytes.fromhex("8006000100001200")
GET_CONFIGURATION = bytes.fromhex("8006000200002700")
GET_SERIAL_NUMBER = bytes.fromhex("800603030904ff00")
GET_CAPABILITIES = bytes.fromhex("a107000000001800")

DEVICE_DESCRIPTOR = bytes.fromhex("120100020000004009120100000101020301")
CONFIGURATION_DESCRIPTOR = bytes.fromhex("0902270001010080320904000003fe030100070501024000000705820240000007058303020010")
SERIAL_NUMBER = bytes.fromhex("0c0330003000300032003700")
CAPABILITIES = bytes.fromhex("010000010401000000000000000103070000000000000000")


def read_status_byte(tag):
    return bytes([0xA1, 0x80, tag, 0, 0, 0, 3, 0])


# Messages of USBTMC. What a host leaves behind the data of a transfer, up to a multiple of four, may be anything.
OLD_BYTES = b"7.5"


def message(tag, text, size=None, is_end=True):
    """A transfer that carries a text, or a part of one."""
    header = struct.pack("<BBBBII", 1, tag, tag ^ 0xFF, 0, len(text) if size is None else size, is_end)
    return header + text + OLD_BYTES[: -len(text) % 4]


def ask(tag, most=1024):
    return struct.pack("<BBBBII", 2, tag, tag ^ 0xFF, 0, most, 0)


def answer(tag, text):
    return struct.pack("<BBBBII", 2, tag, tag ^ 0xFF, 0, len(text), 1) + text


IDENTITY = b"Tewennos works,proving-room thermostat,serial number 00027,firmware 1.0 with the port for USBTMC 1.0 and USB488 1.0\n"

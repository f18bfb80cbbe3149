"""A host that speaks USBTMC by pyusb. What it does and what it sees are lines of standard output."""
import errno
import sys

import usb.core
import usb.util

BULK_OUT, BULK_IN, INTERRUPT_IN = 0x01, 0x82, 0x83
MESSAGE, REQUEST, TRIGGER = 1, 2, 128
SUCCESS, BUSY = 0x01, 0x20
STORE = 1024

failures = []


def say(words):
    print("  " + words, flush=True)


def wrong(words):
    failures.append(words)
    say("WRONG: " + words)


def scene(title):
    print(title, flush=True)


def all_said():
    sys.exit(1 if failures else 0)


def quoted(data):
    return '"' + "".join("\\n" if b == 10 else chr(b) if 32 <= b < 127 else f"\\x{b:02x}" for b in data) + '"'


def in_hex(data):
    return " ".join(f"{b:02x}" for b in data) if len(data) else "an empty packet"


def why(error):
    if error.errno == errno.EPIPE:
        return "stalled"
    if error.errno == errno.ETIMEDOUT:
        return "nothing in time"
    return errno.errorcode.get(error.errno, str(error))


class Host:
    setpoint = 5000

    def __init__(self):
        self.device = usb.core.find(idVendor=0x1209, idProduct=0x0001)
        if self.device is None:
            wrong("the device is not there")
            all_said()
        if self.device.is_kernel_driver_active(0):
            self.device.detach_kernel_driver(0)
        usb.util.claim_interface(self.device, 0)
        self.packet_size = self.device[0][(0, 0)][0].wMaxPacketSize
        self.tag = 0
        self.status_tag = 1

    def leave(self, to_driver=False):
        usb.util.dispose_resources(self.device)
        if to_driver:
            self.device.attach_kernel_driver(0)

    # control transfers

    def asked(self, kind, request, value, index, length):
        """The answer's bytes, or None where it is stalled."""
        try:
            if kind & 0x80:
                return bytes(self.device.ctrl_transfer(kind, request, value, index, length))
            self.device.ctrl_transfer(kind, request, value, index)
            return b""
        except usb.core.USBError as error:
            if error.errno != errno.EPIPE:
                raise
            return None

    def control(self, name, kind, request, value, index, length):
        answer = self.asked(kind, request, value, index, length)
        say(f"{name}: " + ("stalled" if answer is None else in_hex(answer) if length else "done"))
        return answer

    def initiate_clear(self):
        return self.control("INITIATE_CLEAR", 0xA1, 5, 0, 0, 1)

    def check_clear(self):
        return self.control("CHECK_CLEAR_STATUS", 0xA1, 6, 0, 0, 2)

    def initiate_abort(self, endpoint, tag):
        """The tag is this host's own count, so that it is said only where it is another."""
        name = "INITIATE_ABORT_BULK_" + ("IN" if endpoint == BULK_IN else "OUT")
        answer = self.asked(0xA2, 3 if endpoint == BULK_IN else 1, tag, endpoint, 2)
        if answer is None or answer[1] != tag:
            wrong(f"{name} with {tag}: {answer}")
        else:
            say(f"{name}: {answer[0]:02x} and the tag")

    def check_abort(self, endpoint):
        """The count is told as a fact, since a packet has another size at another speed."""
        name = "CHECK_ABORT_BULK_" + ("IN" if endpoint == BULK_IN else "OUT") + "_STATUS"
        answer = self.asked(0xA2, 4 if endpoint == BULK_IN else 2, 0, endpoint, 8)
        count = int.from_bytes(answer[4:], "little")
        counted = "one packet's data" if count == self.packet_size - 12 else count
        say(f"{name}: {in_hex(answer[:4])}, count: {counted}")

    def clear(self):
        """As the guide has it, without a word but for what is odd."""
        if self.asked(0xA1, 5, 0, 0, 1) != bytes([SUCCESS]):
            wrong("the clear does not begin")
        while (answer := self.asked(0xA1, 6, 0, 0, 2)) != bytes([SUCCESS, 0]):
            if answer != bytes([2, 1]):
                wrong(f"the clear is {answer}")
                return
            self.device.read(BULK_IN, self.packet_size)
        self.device.clear_halt(BULK_OUT)
        say("clear: done")

    def set_halt(self, endpoint):
        self.control(f"SET_FEATURE, halt of 0x{endpoint:02x}", 0x02, 3, 0, endpoint, 0)

    def clear_halt(self, endpoint):
        self.device.clear_halt(endpoint)
        say(f"CLEAR_FEATURE, halt of 0x{endpoint:02x}: done")

    def say_halt(self, endpoint):
        self.control(f"GET_STATUS of 0x{endpoint:02x}", 0x82, 0, 0, endpoint, 2)

    def configure(self):
        usb.util.release_interface(self.device, 0)
        self.device.set_configuration(1)
        usb.util.claim_interface(self.device, 0)
        say("SET_CONFIGURATION: done")

    # Interrupt-IN

    def interrupt(self, limit=2000):
        try:
            return in_hex(self.device.read(INTERRUPT_IN, 2, limit))
        except usb.core.USBError as error:
            return why(error)

    def say_status(self):
        """By the tag, as a packet of another kind may wait before it; then the answer may be 0x20, and the host asks again."""
        while True:
            self.status_tag = self.status_tag % 127 + 1
            if self.status_tag == 1:
                self.status_tag = 2
            answer = self.asked(0xA1, 128, self.status_tag, 0, 3)
            if answer not in (bytes([SUCCESS, self.status_tag, 0]), bytes([BUSY, self.status_tag, 0])):
                wrong(f"READ_STATUS_BYTE: {answer}")
                return
            packet = self.device.read(INTERRUPT_IN, 2, 2000)
            if answer[0] == SUCCESS and packet[0] == 0x80 | self.status_tag:
                say(f"the status byte: {packet[1]:02x}")
                return

    # bulk transfers

    def header(self, kind, size, attributes, inverse=None):
        self.tag = self.tag % 255 + 1
        inverse = self.tag ^ 0xFF if inverse is None else inverse
        return bytes([kind, self.tag, inverse, 0]) + size.to_bytes(4, "little") + bytes([attributes, 0, 0, 0])

    def out(self, name, data, limit=2000):
        try:
            self.device.write(BULK_OUT, data, limit)
            say(f"{name}: done")
        except usb.core.USBError as error:
            say(f"{name}: {why(error)}")

    def send(self, text, inverse=None):
        data = text.encode()
        self.out(f"message {quoted(data)}", self.header(MESSAGE, len(data), 1, inverse) + data + bytes(-len(data) % 4))

    def send_over(self, text, old):
        """A message with what was left of an older one behind it, up to a multiple of four."""
        data = text.encode()
        left = old.encode()[: -len(data) % 4]
        self.out(f"message {quoted(data)}, and {quoted(left)} behind it", self.header(MESSAGE, len(data), 1) + data + left)

    def send_cut(self, text):
        """The first packet of a transfer that is longer than it by this text."""
        data = b"x" * (self.packet_size - 12) + text.encode()
        transfer = self.header(MESSAGE, len(data), 1) + data
        self.out("the first packet of two", transfer[: self.packet_size])

    def request(self, size=STORE):
        self.out("REQUEST", self.header(REQUEST, size, 0))

    def trigger(self):
        self.tag = self.tag % 255 + 1
        self.out("TRIGGER", bytes([TRIGGER, self.tag, self.tag ^ 0xFF]) + bytes(9))

    def packet(self, limit=2000):
        try:
            return in_hex(self.device.read(BULK_IN, self.packet_size, limit))
        except usb.core.USBError as error:
            return why(error)

    def answer(self, question):
        """The reply to a question, or why there is none. Says nothing."""
        data = question.encode()
        try:
            self.device.write(BULK_OUT, self.header(MESSAGE, len(data), 1) + data + bytes(-len(data) % 4), 2000)
            self.device.write(BULK_OUT, self.header(REQUEST, STORE, 0), 2000)
            reply = bytes(self.device.read(BULK_IN, STORE + self.packet_size, 5000))
        except usb.core.USBError as error:
            return why(error)
        if reply[:3] != bytes([REQUEST, self.tag, self.tag ^ 0xFF]):
            return f"another header: {in_hex(reply[:12])}"
        return quoted(reply[12 : 12 + int.from_bytes(reply[4:8], "little")])

    def say_answer(self, question):
        say(f"{quoted(question.encode())} is answered {self.answer(question)}")

    def try_whole_command(self):
        """A setpoint that no other scene sets is set, and read back."""
        value = f"{Host.setpoint / 1000:06.3f}"
        Host.setpoint += 1
        data = f"SETP {value}\n".encode()
        try:
            self.device.write(BULK_OUT, self.header(MESSAGE, len(data), 1) + data + bytes(-len(data) % 4), 2000)
        except usb.core.USBError as error:
            wrong(f"a whole command is not accepted: {why(error)}")
            return
        answer = self.answer("SETP?\n")
        if answer == f'"{value}\\n"':
            say(f"a whole command: SETP {value} arrives, and SETP? gives {answer}")
        else:
            wrong(f"a whole command sets {value}, and SETP? gives {answer}")

"""The device, attached: a host's transfers, each waited for."""
import time

import usbip
from connection import Connection, Wrong, shown

FREE_AGAIN = 5.0  # seconds after which a host that has gone must have been noticed


def asks_for_it(connection, behind=b""):
    """Whether the connection becomes the host; it has sent `behind` with its import. The host before it has just gone, and it may be that this was not noticed
    yet: then the device is busy for a short time."""
    connection.send_what_goes(usbip.import_request() + behind)
    reply = connection.read(8)
    if reply == usbip.IMPORT_REPLY[:8]:
        connection.expect(usbip.IMPORT_REPLY[8:], "an import")
        return True
    if reply != usbip.import_refused(usbip.BUSY):
        raise Wrong(f"an import: {shown(reply)} came")
    connection.reset()
    return False


def attach(port, behind=b"", room=None):
    """The connection of a new host."""
    until = time.monotonic() + FREE_AGAIN
    while True:
        connection = Connection(port, room)
        if asks_for_it(connection, behind):
            return connection
        if time.monotonic() > until:
            raise Wrong(f"the device is busy {FREE_AGAIN:.0f} seconds after its host has gone")
        time.sleep(0.0005)


class Device:
    """Once it is configured, a poll of Interrupt-IN waits all the while, as Linux's driver has one."""

    def __init__(self, port):
        self.connection = attach(port)
        self.number = 0
        self.tag = 1
        self.reads = set()  # numbers of the transfers to the host that have not ended
        self.ended = {}  # what came back and was not waited for yet: status, length and bytes, by kind and number
        self.poll = 0  # the number of the poll of Interrupt-IN
        self.notes = []  # packets of Interrupt-IN that nobody has looked at

    def detach(self):
        self.connection.close()

    def next_number(self):
        self.number += 1
        return self.number

    def next_tag(self):
        """From 2 to 127, which a status byte can be asked for with."""
        self.tag = self.tag + 1 if self.tag < 127 else 2
        return self.tag

    def start(self, endpoint, length, data=b"", setup=b""):
        number = self.next_number()
        if endpoint[1]:
            self.reads.add(number)
        self.connection.send(usbip.submit(number, endpoint, length, data, setup))
        return number

    def unlink(self, which):
        number = self.next_number()
        self.connection.send(usbip.unlink(number, which))
        status = self.wait_for(4, number)[0]
        if status == usbip.UNLINKED:
            self.reads.discard(which)
        return status

    def start_poll(self):
        self.poll = self.start(usbip.INTERRUPT_IN, 2)

    def hear(self):
        """Takes one thing that comes back."""
        kind, number, status, length = usbip.read_head(self.connection.read(usbip.HEAD))
        data = self.connection.read(length) if kind == 3 and number in self.reads else b""
        self.reads.discard(number)
        if kind == 3 and number == self.poll:
            self.hear_note(status, data)
        else:
            self.ended[kind, number] = (status, length, data)

    def hear_note(self, status, data):
        if status != usbip.DONE or len(data) != 2:
            raise Wrong(f"a poll of Interrupt-IN ended with {status} and {shown(data)}")
        self.notes.append(data)
        self.start_poll()

    def wait_for(self, kind, number):
        while (kind, number) not in self.ended:
            self.hear()
        return self.ended.pop((kind, number))

    def next_note(self):
        while not self.notes:
            self.hear()
        return self.notes.pop(0)

    def transfer(self, endpoint, length, data=b"", setup=b""):
        """Status, length and bytes."""
        return self.wait_for(3, self.start(endpoint, length, data, setup))

    def control(self, setup):
        status, _, data = self.transfer((0, setup[0] >> 7), setup[6] | setup[7] << 8, setup=setup)
        if status != usbip.DONE:
            raise Wrong(f"the setup packet {setup.hex()} ended with {status}")
        return data

    def write(self, data, what):
        status, length, _ = self.transfer(usbip.BULK_OUT, len(data), data)
        if (status, length) != (usbip.DONE, len(data)):
            raise Wrong(f"{what}: Bulk-OUT took {length} of {len(data)} bytes and ended with {status}")

    def tell(self, text):
        self.write(usbip.message(self.next_tag(), text), repr(text))

    def ask(self, text):
        """The bytes that the device answers with, of which the header is looked at here."""
        self.tell(text)
        tag = self.next_tag()
        self.write(usbip.ask(tag), "a request")
        status, _, data = self.transfer(usbip.BULK_IN, 2048)
        if status != usbip.DONE or data[:4] != usbip.answer(tag, b"")[:4] or data != usbip.answer(tag, data[12:]):
            raise Wrong(f"{text!r} with tag {tag}: the answer ended with {status} and is {shown(data)}")
        return data[12:]

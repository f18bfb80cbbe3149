"""The good host: a process of its own, which says what is wrong as soon as something is."""
import multiprocessing
import random
import time

import usbip
from connection import LONGEST_WAIT, Wrong
from device import Device

REFUSED, ASKS, AT_SETPOINT = 0x20, 0x40, 0x01  # bits of the status byte
SERVICE_REQUEST = 0x81  # the first byte of such a packet of Interrupt-IN
INTERRUPT_IN_BUSY = 0x20  # a status of USB488: a packet waits to be fetched first


def expect(what, came, expected):
    if came != expected:
        raise Wrong(f"{what}: {expected!r} was expected, and {came!r} came")


class Host:
    def __init__(self, port, seed, done):
        self.port = port
        self.random = random.Random(seed)
        self.setpoint = b"20.000\n"  # what the thermostat starts with, and then what this host has set
        self.done = done  # rounds, for others to see
        self.rounds = 0
        self.services = 0
        self.visits = 0
        self.device = None

    def attach(self):
        self.device = Device(self.port)
        for setup, data in (
            (usbip.GET_DEVICE, usbip.DEVICE_DESCRIPTOR),
            (usbip.GET_CONFIGURATION, usbip.CONFIGURATION_DESCRIPTOR),
            (usbip.GET_SERIAL_NUMBER, usbip.SERIAL_NUMBER),
            (usbip.SET_CONFIGURATION, b""),
            (usbip.GET_CAPABILITIES, usbip.CAPABILITIES),
        ):
            expect(f"the setup packet {setup.hex()}", self.device.control(setup), data)
        self.device.start_poll()
        self.look_at_status()
        expect("SETP? of a new host", self.device.ask(b"SETP?\n"), self.setpoint)

    def look_at_status(self):
        """Before the first message. Whatever the host before this one was refused, only the room's bit can be on."""
        tag = self.device.next_tag()
        while (answer := self.device.control(usbip.read_status_byte(tag)))[0] == INTERRUPT_IN_BUSY:
            self.expect_room(self.device.next_note())
        expect("READ_STATUS_BYTE", answer, bytes([1, tag, 0]))
        while (note := self.device.next_note())[0] == SERVICE_REQUEST:
            self.expect_room(note)
        expect("the status byte of a new host", (note[0], note[1] & ~AT_SETPOINT), (0x80 | tag, 0))

    def expect_room(self, note):
        expect("a service request of a new host", note, bytes([SERVICE_REQUEST, ASKS | AT_SETPOINT]))

    def detach(self):
        self.device.detach()
        self.visits += 1

    def set(self):
        value = self.random.randrange(100000)
        self.setpoint = b"%02d.%03d\n" % divmod(value, 1000)
        self.device.tell(b"SETP " + self.setpoint)

    def take_note(self, note):
        """A service request: only two bits beside its own have a meaning. One that the room has come to its setpoint can be there at any time."""
        if note[0] != SERVICE_REQUEST or note[1] & ~(REFUSED | ASKS | AT_SETPOINT) or not note[1] & ASKS:
            raise Wrong(f"a service request was expected, and {note.hex()} came")
        return note[1]

    def service(self):
        """A message that cannot be carried out has the device ask for service. The next one ends what the status byte says of it."""
        for note in self.device.notes:
            self.take_note(note)
        self.device.notes.clear()
        self.device.tell(b"SETP warm\n")
        while not self.take_note(self.device.next_note()) & REFUSED:
            pass
        expect("SETP? behind a refused message", self.device.ask(b"SETP?\n"), self.setpoint)
        self.services += 1

    def poll_and_unlink(self):
        number = self.device.start(usbip.BULK_IN, 2048)
        expect("an unlink of a poll that waits", self.device.unlink(number), usbip.UNLINKED)
        expect("an unlink of a poll that is no more", self.device.unlink(number), usbip.DONE)

    def round(self):
        self.set()
        expect("SETP?", self.device.ask(b"SETP?\n"), self.setpoint)
        if self.rounds % 3 == 0:
            expect("*IDN?", self.device.ask(b"*IDN?\n"), usbip.IDENTITY)
        if self.rounds % 5 == 0:
            self.poll_and_unlink()
        if self.rounds % 7 == 0:
            self.service()
        self.rounds += 1
        self.done.value = self.rounds

    def counts(self):
        return self.rounds, self.services, self.visits


def work(host, orders):
    """`stay` attaches the device and makes rounds until the next order comes; `visit` attaches it, makes three and detaches it."""
    order = orders.recv()
    while order != "end":
        host.attach()
        host.round()
        if order == "stay":
            orders.send("stays")
            while not orders.poll():
                host.round()
            order = orders.recv()
        else:
            host.round()
            host.round()
            order = None
        host.detach()
        if order is None:
            orders.send("visited")
            order = orders.recv()
    orders.send(host.counts())


def run(host, orders, failures):
    try:
        work(host, orders)
    except (Wrong, OSError) as error:
        failures.put(f"the good host, in round {host.rounds}: {error}")
    except (EOFError, KeyboardInterrupt):
        pass


class GoodHost:
    """The side of whoever gives the orders."""

    def __init__(self, port, seed, failures):
        self.orders, others = multiprocessing.Pipe()
        self.done = multiprocessing.Value("L", 0)
        self.process = multiprocessing.Process(target=run, args=(Host(port, seed, self.done), others, failures), daemon=True)
        self.process.start()
        others.close()

    def tell(self, order):
        """Gives an order, and waits until it has begun, or is done."""
        try:
            self.orders.send(order)
            return self.orders.recv()
        except (EOFError, OSError):
            raise Wrong("the good host has ended") from None

    def wait_for_round(self):
        """One more is done."""
        before = self.done.value
        until = time.monotonic() + LONGEST_WAIT
        while self.done.value == before:
            if not self.process.is_alive() or time.monotonic() > until:
                raise Wrong("the good host makes no more rounds")
            time.sleep(0.001)

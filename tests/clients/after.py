"""Bad connections after an attach: each of them is the host while it is there."""
import socket

import commands
import usbip
from connection import Connection, Wrong
from device import asks_for_it, attach
from lists import ask as ask_for_list

STILL = 0.1  # seconds in which nothing more is taken
FILLED_MOST = 1 << 24  # bytes: more than a connection and the server have room for


def end(connection, ending, chance):
    way = chance.randrange(3)
    if ending == commands.SERVER_CLOSES:
        connection.expect_end("no command")
    elif ending == commands.CLIENT_LEAVES and way == 0:
        connection.say_end()
        connection.expect_end("what comes back")
    if way == 1:
        connection.reset()
    else:
        connection.close()


def host(make):
    """A kind of which each is sent with its import, in one piece."""

    def some(port, count, chance):
        for _ in range(count):
            sent, returned, ending = make(chance)
            connection = attach(port, sent)
            connection.expect(returned, "what comes back")
            end(connection, ending, chance)

    return some


def fill(connection):
    """Asks and never reads, until nothing more is taken."""
    asked = usbip.control(2, usbip.GET_CONFIGURATION) * 1000
    taken = 0
    connection.socket.setsockopt(socket.SOL_SOCKET, socket.SO_SNDBUF, 4096)
    connection.socket.settimeout(STILL)
    try:
        while taken < FILLED_MOST:
            taken += connection.socket.send(asked[taken % usbip.HEAD :])
    except socket.timeout:
        return
    raise Wrong(f"a host that does not read its replies has sent {taken} bytes, and the server goes on reading")


def never_reads(port, count, chance):
    """The first sends as much as is taken, and the list is asked for while it is stuck."""
    for number in range(count):
        connection = attach(port, room=4096)
        if number == 0:
            fill(connection)
            ask_for_list(port)
        else:
            connection.send(usbip.control(2, usbip.GET_CONFIGURATION) * chance.randrange(1, 20))
        connection.reset()


def silent(port, count, chance):
    """It has the device and does nothing, or sends a part of a command. Another one is told that the device is busy."""
    for _ in range(count):
        connection = attach(port, commands.ASK_DEVICE[: chance.randrange(usbip.HEAD)])
        other = Connection(port)
        other.send(usbip.import_request())
        other.expect(usbip.import_refused(usbip.BUSY), "an import while the device is busy")
        other.expect_end("an import while the device is busy")
        other.close()
        end(connection, commands.CLIENT_LEAVES, chance)


def handed_over(port, count, chance):
    """Polls wait when it goes, and in the same moment another one asks for the device. The other one must have nothing of them."""
    for _ in range(count):
        sent, returned, _ = commands.polls(chance)
        connection = attach(port, sent)
        connection.expect(returned, "what comes back")
        other = Connection(port)
        connection.reset()
        if asks_for_it(other, commands.CONFIGURE + commands.ASK_DEVICE):
            other.expect(commands.CONFIGURED + commands.TOLD_DEVICE, "what comes back to the next host")
            end(other, commands.CLIENT_LEAVES, chance)


# How many there are between two visits of the good host: fewer where the device is left in the middle of something.
MANY, FEW = 100, 10
KINDS = [
    ("garbage", host(commands.garbage), MANY),
    ("unknown command", host(commands.unknown_command), MANY),
    ("wrong device id", host(commands.wrong_device), MANY),
    ("half heads", host(commands.half_head), MANY),
    ("half data", host(commands.half_data), FEW),
    ("huge lengths without the bytes", host(commands.huge_without_bytes), MANY),
    ("huge lengths with bytes", host(commands.huge_with_bytes), MANY),
    ("unknown endpoints", host(commands.unknown_endpoint), MANY),
    ("isochronous requests", host(commands.isochronous), MANY),
    ("control transfers that do not fit", host(commands.bad_control), MANY),
    ("transfers before it is configured", host(commands.unconfigured), FEW),
    ("broken messages", host(commands.broken_messages), FEW),
    ("unlink of numbers never sent", host(commands.unlink_never_sent), MANY),
    ("unlink of one that waits, twice", host(commands.unlink_twice), MANY),
    ("the same number twice", host(commands.same_number), MANY),
    ("more transfers than it holds", host(commands.too_many), MANY),
    ("replies never read", never_reads, 500),
    ("a silent host", silent, MANY),
    ("gone as another one comes", handed_over, MANY),
    ("gone in the middle of a transfer", host(commands.vanish), FEW),
]

"""Bad connections before an attach: none of them ever becomes the host. Each kind opens some at a time, and then looks at what comes of each."""
import time

import usbip
from connection import Connection
from lists import ask

AT_A_TIME = 100
HELD = 500  # half open ones; the server has room for fewer


def garbage(chance):
    first = chance.choice([number for number in range(256) if number != 1])
    return bytes([first]) + chance.randbytes(chance.randrange(7, 300)), b""


def wrong_version(chance):
    version = chance.choice([0, 0x0100, 0x0106, 0x0110, 0x0112, 0x1101, 0xFFFF])
    return usbip.request(chance.choice([usbip.LIST, usbip.IMPORT]), version) + b"1-1".ljust(32, b"\0"), b""


def unknown_operation(chance):
    operation = chance.choice([0, 2, 3, 5, 0x8000, 0x8001, 0x8002, 0x8004, 0x8006, 0x8008, 0xFFFF])
    return usbip.request(operation) + b"1-1".ljust(32, b"\0"), b""


def no_such_device(chance):
    bus_id = chance.choice([b"", b"1-2", b"2-1", b"1-1.1", b"1-11", b" 1-1", b"../1-1", b"%s%n%n", b"A" * 32, chance.randbytes(32)])
    return usbip.import_request(bus_id), usbip.import_refused(usbip.NO_SUCH_DEVICE)


def import_while_busy(chance):
    """What is behind the end of the bus id does not count."""
    return usbip.import_request(chance.choice([b"1-1", b"1-1\0" + chance.randbytes(28)])), usbip.import_refused(usbip.BUSY)


def bytes_behind(chance):
    more = chance.randbytes(chance.choice([1, 40, 4096, 70000]))
    if chance.randrange(2):
        return usbip.import_request() + more, usbip.import_refused(usbip.BUSY)
    return usbip.request(usbip.LIST) + more, usbip.LIST_REPLY


def answered(make):
    """A kind whose connections are answered, or not, and then closed by the server."""

    def some(port, count, chance, _):
        opened = []
        for _ in range(count):
            sent, reply = make(chance)
            connection = Connection(port)
            connection.send_what_goes(sent)
            opened.append((connection, reply))
        for connection, reply in opened:
            connection.expect(reply, "the reply")
            connection.expect_end("the end")
            connection.close()

    return some


def half_requests(port, count, chance, _):
    """The server waits for the rest. Some say that there is none, some close and some reset the connection."""
    for number in range(count):
        whole = chance.choice([usbip.request(usbip.LIST), usbip.import_request()])
        connection = Connection(port)
        connection.send(whole[: chance.randrange(1, len(whole))])
        if number % 3 == 0:
            connection.say_end()
            connection.expect_end("half a request")
        if number % 3 == 1:
            connection.reset()
        else:
            connection.close()


def closed(port, count, *_):
    for _ in range(count):
        Connection(port).close()


def reset(port, count, *_):
    for _ in range(count):
        Connection(port).reset()


def unread(port, count, chance, _):
    for _ in range(count):
        connection = Connection(port)
        connection.send(chance.choice([usbip.request(usbip.LIST), usbip.import_request()]))
        connection.reset()


def byte_by_byte(port, count, *_):
    opened = [Connection(port) for _ in range(count)]
    for number in usbip.request(usbip.LIST):
        for connection in opened:
            connection.send(bytes([number]))
    for connection in opened:
        connection.expect(usbip.LIST_REPLY, "a list that was asked for byte by byte")
        connection.expect_end("a list that was asked for byte by byte")
        connection.close()


def half_open(port, count, chance, wait_for_host):
    """All are held open with half a request, or nothing, while the good host works and the list is asked for."""
    opened = []
    for _ in range(count):
        connection = Connection(port)
        connection.send_what_goes(usbip.import_request()[: chance.randrange(40)])
        opened.append(connection)
    for _ in range(3):
        wait_for_host()
        ask(port)
    for connection in opened:
        connection.reset()


def patience(port, limit):
    """One that says nothing is closed by the server, by and by; the seconds that it took."""
    began = time.monotonic()
    connection = Connection(port)
    connection.socket.settimeout(limit)
    connection.expect_end("a connection that says nothing")
    connection.close()
    return time.monotonic() - began


KINDS = [
    ("garbage", answered(garbage), AT_A_TIME),
    ("half requests", half_requests, AT_A_TIME),
    ("wrong version", answered(wrong_version), AT_A_TIME),
    ("unknown operation", answered(unknown_operation), AT_A_TIME),
    ("import of another bus id", answered(no_such_device), AT_A_TIME),
    ("import while it is busy", answered(import_while_busy), AT_A_TIME),
    ("closed at once", closed, AT_A_TIME),
    ("reset at once", reset, AT_A_TIME),
    ("gone before the reply", unread, AT_A_TIME),
    ("list byte by byte", byte_by_byte, AT_A_TIME),
    ("bytes behind the request", answered(bytes_behind), AT_A_TIME),
    ("held half open", half_open, HELD),
]

"""Asks for the list of devices all the while: a process of its own."""
import multiprocessing
import time

import usbip
from connection import Connection, Wrong

PAUSE = 0.05  # seconds


def ask(port):
    connection = Connection(port)
    connection.send(usbip.request(usbip.LIST))
    connection.expect(usbip.LIST_REPLY, "a list")
    connection.expect_end("a list")
    connection.close()


def run(port, count, longest, is_over, failures):
    try:
        while not is_over.wait(PAUSE) and multiprocessing.parent_process().is_alive():
            began = time.monotonic()
            ask(port)
            longest.value = max(longest.value, time.monotonic() - began)
            count.value += 1
    except (Wrong, OSError) as error:
        failures.put(f"list number {count.value + 1}: {error}")
    except KeyboardInterrupt:
        pass


class Lists:
    def __init__(self, port, failures):
        self.count = multiprocessing.Value("L", 0)
        self.longest = multiprocessing.Value("d", 0)
        self.is_over = multiprocessing.Event()
        self.process = multiprocessing.Process(target=run, args=(port, self.count, self.longest, self.is_over, failures), daemon=True)
        self.process.start()

    def end(self):
        self.is_over.set()
        self.process.join()

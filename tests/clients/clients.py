"""Bad connections to the virtual thermostat, while a good host works: see README.md."""
import multiprocessing
import os
import random
import shutil
import signal
import subprocess
import sys
import time

import after
import before
from connection import Wrong
from host import GoodHost
from lists import Lists
from server import NotStarted, Server

COMMAND = ["./run", "thermostat", "--port", "0", "--log", "/dev/null"]
WARM = 20  # connections of each kind before the memory is measured first
GROWTH = 2048  # kilobytes that it may grow by
PATIENCE = 30.0  # seconds within which a connection that says nothing is closed


class Test:
    def __init__(self, server, seed):
        self.server = server
        self.chance = random.Random(seed)
        self.failures = multiprocessing.SimpleQueue()  # what the other processes find wrong
        self.good = GoodHost(server.port, seed, self.failures)
        self.lists = Lists(server.port, self.failures)

    def look(self):
        if not self.failures.empty():
            raise Wrong(self.failures.get())
        if not self.server.is_well():
            raise Wrong(f"the server has ended, with status {self.server.process.poll()}")

    def some_before(self, make, count):
        make(self.server.port, count, self.chance, self.good.wait_for_round)

    def some_after(self, make, count):
        make(self.server.port, count, self.chance)
        self.good.tell("visit")

    def all_of(self, when, kinds, some, count, is_told):
        for name, make, at_a_time in kinds:
            began = time.monotonic()
            try:
                for begun in range(0, count, at_a_time):
                    some(make, min(at_a_time, count - begun))
                    self.look()
            except (Wrong, OSError) as error:
                raise Wrong(f"{when}, {name}: {error}") from None
            self.server.forget_what_it_said()
            if is_told:
                print(f"{when:6}  {name:34}  {count:6} connections  {time.monotonic() - began:6.1f} s", flush=True)

    def run(self, count, is_told):
        self.good.tell("stay")
        self.all_of("before", before.KINDS, self.some_before, count, is_told)
        self.good.tell("visit")
        self.all_of("after", after.KINDS, self.some_after, count, is_told)

    def found(self):
        """What the other processes have found and nobody has said yet. It may be the reason of what has been found here."""
        time.sleep(0.2)
        while not self.failures.empty():
            yield self.failures.get()


def ask_with_usbip(port):
    """Linux's own tool, where it is installed."""
    usbip = shutil.which("usbip", path=os.environ.get("PATH", "") + ":/usr/sbin:/sbin")
    if usbip is None:
        return "usbip is not installed, so that it was not tried"
    said = subprocess.run([usbip, "--tcp-port", str(port), "list", "-r", "127.0.0.1"], capture_output=True, text=True, timeout=20, check=False)
    if said.returncode != 0 or "1-1:" not in said.stdout or "1209:0001" not in said.stdout:
        raise Wrong(f"usbip list ended with status {said.returncode} and said: {said.stdout}{said.stderr}")
    return "usbip list shows the device"


def measure(server, memory, files):
    grown, files_now = server.memory() - memory, server.lasting_files()
    if grown > GROWTH:
        raise Wrong(f"the server's memory was {memory} kB and grew by {grown} kB; {GROWTH} kB are allowed")
    if files_now != files:
        raise Wrong(f"the server's open files were {files}, and are {files_now}")
    print(f"the server's memory was {memory} kB and grew by {grown} kB; it has {len(files)} files open, as at the start")


def run(test, count):
    test.run(min(count, WARM), is_told=False)
    memory, files = test.server.memory(), test.server.lasting_files()
    test.run(count, is_told=True)
    print(f"one that says nothing was closed after {before.patience(test.server.port, PATIENCE):.0f} s")
    print(ask_with_usbip(test.server.port))
    rounds, services, visits = test.good.tell("end")
    test.lists.end()
    test.look()
    print(f"the good host made {rounds} rounds, with {services} service requests, and attached the device {visits} times: every reply was right")
    print(f"the list was asked for {test.lists.count.value} times: every reply was right, and the longest took {test.lists.longest.value * 1000:.0f} ms")
    measure(test.server, memory, files)


def main(count, seed):
    began = time.monotonic()
    multiprocessing.set_start_method("fork")
    signal.signal(signal.SIGTERM, lambda *_: sys.exit(143))
    try:
        server = Server(COMMAND)
    except NotStarted as error:
        print(f"clients: {error}", file=sys.stderr)
        return error.status
    try:
        test = Test(server, seed)
        run(test, count)
    except (Wrong, OSError) as error:
        for words in test.found():
            print(f"clients: {words}", file=sys.stderr)
        print(f"clients: {error}", file=sys.stderr)
        print(f"clients: the last that the server said:\n{server.said()[-600:]}", file=sys.stderr)
        return 1
    finally:
        server.end()
    print(f"all is well: {count} connections of each of {len(before.KINDS) + len(after.KINDS)} kinds, seed {seed}, in {time.monotonic() - began:.0f} s")
    return 0


if __name__ == "__main__":
    try:
        sys.exit(main(int(sys.argv[1]), int(sys.argv[2])))
    except KeyboardInterrupt:
        sys.exit(130)

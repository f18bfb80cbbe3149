"""The server: a process that is started, measured and ended."""
import fcntl
import os
import re
import signal
import subprocess
import tempfile
import time


class NotStarted(Exception):
    def __init__(self, words, status=1):
        super().__init__(words)
        self.status = status


class Server:
    def __init__(self, command):
        """In a group of its own. What it writes goes to a file, to which it only appends: nobody reads it while the test runs, and it is emptied by and by."""
        self.output = tempfile.TemporaryFile()
        fcntl.fcntl(self.output, fcntl.F_SETFL, os.O_APPEND)
        try:
            self.process = subprocess.Popen(command, stdin=subprocess.DEVNULL, stdout=self.output, start_new_session=True)
        except OSError as error:
            raise NotStarted(f"{command[0]} cannot be started: {error.strerror}", 2) from None
        try:
            self.port = self.wait_for_port()
            self.pid = self.find_process()
        except BaseException:
            self.end()
            raise

    def said(self):
        """The end of what it has written since it was emptied."""
        size = os.fstat(self.output.fileno()).st_size
        return os.pread(self.output.fileno(), 4000, max(0, size - 4000)).decode(errors="replace")

    def forget_what_it_said(self):
        os.truncate(self.output.fileno(), 0)

    def wait_for_port(self):
        """As long as it takes: the library may have to be built first."""
        while True:
            status = self.process.poll()
            said = re.search(r"on 127\.0\.0\.1:(\d+)", self.said())
            if said:
                return int(said.group(1))
            if status is not None:
                raise NotStarted(f"the server ended with status {status} before it listened", 2 if status == 2 else 1)
            time.sleep(0.02)

    def find_process(self):
        """The one that listens, of all that were started with it."""
        address = f"0100007F:{self.port:04X}"
        with open("/proc/net/tcp", encoding="ascii") as table:
            listener = next((f"socket:[{words[9]}]" for words in map(str.split, table) if words[1] == address and words[3] == "0A"), None)
        for pid in map(int, filter(str.isdigit, os.listdir("/proc"))):
            try:
                if os.getsid(pid) == self.process.pid and listener in files_of(pid):
                    return pid
            except OSError:  # it has ended meanwhile, or is somebody else's
                pass
        raise NotStarted(f"no process was found that listens on 127.0.0.1:{self.port}")

    def memory(self):
        """Kilobytes that it has in memory."""
        with open(f"/proc/{self.pid}/status", encoding="ascii") as status:
            return next(int(line.split()[1]) for line in status if line.startswith("VmRSS:"))

    def open_files(self):
        """Each by its name, and a connection without its number."""
        return sorted(name.split(":[")[0] for name in files_of(self.pid))

    def lasting_files(self):
        """The fewest in half a second: a list may be asked for at any time, and a host that has gone be noticed."""
        seen = []
        for _ in range(25):
            seen.append(self.open_files())
            time.sleep(0.02)
        return min(seen, key=len)

    def is_well(self):
        return self.process.poll() is None

    def end(self):
        """With all that it has started."""
        for number in (signal.SIGTERM, signal.SIGKILL):
            try:
                os.killpg(self.process.pid, number)
                self.process.wait(5)
            except (ProcessLookupError, subprocess.TimeoutExpired):
                pass


def files_of(pid):
    folder = f"/proc/{pid}/fd"
    found = []
    for number in os.listdir(folder):
        try:
            found.append(os.readlink(f"{folder}/{number}"))
        except FileNotFoundError:  # closed meanwhile
            pass
    return found

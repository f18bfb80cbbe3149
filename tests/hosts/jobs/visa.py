"""PyVISA with pyvisa-py over libusb: questions, commands, answers in pieces, and an answer that comes too late."""
import sys
import time

import pyvisa
from pyvisa.constants import EventMechanism, EventType, StatusCode

failures = []


def say(words):
    print("  " + words, flush=True)


def check(name, got, right):
    """What is known by itself is compared here."""
    say(f"{name}: {got!r}")
    if got != right:
        failures.append(name)
        say(f"WRONG: {right!r} was to come")


def try_whole_command(instrument, value):
    instrument.write(f"SETP {value}")
    check(f"SETP {value}, and SETP?", instrument.query("SETP?"), value + "\n")


def too_late(instrument):
    """pyvisa-py gives the read up by an abort, with the right tag."""
    print("A question whose answer comes after the time limit", flush=True)
    expect_nothing(instrument, "TEMP?", lambda: instrument.query("TEMP?"))


def expect_nothing(instrument, name, read):
    instrument.timeout = 500
    try:
        say(f"WRONG: {name}: {read()!r}")
        failures.append(name)
    except pyvisa.errors.VisaIOError as error:
        say(f"{name}: " + ("no answer in time" if error.error_code == StatusCode.error_timeout else str(error)))
    instrument.timeout = 5000


def in_ordinary_use(instrument):
    check("*IDN?, bytes", len(instrument.query("*IDN?")), 116)
    say(f"*IDN?: {instrument.query('*IDN?')!r}")
    try_whole_command(instrument, "36.001")
    instrument.chunk_size = 20
    check("*IDN? by 20 bytes", len(instrument.query("*IDN?")), 116)
    check("SETP? as a number", instrument.query_ascii_values("SETP?"), [36.001])
    instrument.chunk_size = 20480


def late_answers(instrument):
    too_late(instrument)
    try_whole_command(instrument, "36.002")
    too_late(instrument)
    time.sleep(2.5)
    expect_nothing(instrument, "a read without a question", instrument.read)
    try_whole_command(instrument, "36.003")
    check("TEMP? with time enough, bytes", len(instrument.query("TEMP?")), 7)
    try_whole_command(instrument, "36.004")


def what_is_not_there(instrument):
    print("What this version does not have", flush=True)
    for name, try_it in {
        "clear": instrument.clear,
        "the status byte": instrument.read_stb,
        "a trigger": instrument.assert_trigger,
        "service requests": lambda: instrument.enable_event(EventType.service_request, EventMechanism.queue),
    }.items():
        try:
            try_it()
            say(f"{name}: done")
        except pyvisa.errors.VisaIOError as error:
            say(f"{name}: {error.abbreviation}")
        except (NotImplementedError, AttributeError, TypeError) as error:
            say(f"{name}: {type(error).__name__}")
    try_whole_command(instrument, "36.005")


def main():
    manager = pyvisa.ResourceManager("@py")
    print("Questions and commands", flush=True)
    names = [name for name in manager.list_resources() if name.startswith("USB")]
    say(f"resources: {names}")
    instrument = manager.open_resource(names[0])
    in_ordinary_use(instrument)
    late_answers(instrument)
    what_is_not_there(instrument)
    instrument.close()
    sys.exit(1 if failures else 0)


main()

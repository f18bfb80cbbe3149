"""Packets and control transfers by pyusb: what a host does that speaks USBTMC itself, and what it does wrong."""
import subprocess
import sys
import time

from host import BULK_IN, BULK_OUT, INTERRUPT_IN, Host, all_said, say, scene, wrong


def status_byte(host):
    scene("The status byte")
    host.say_status()
    host.send("HEAT\n")
    say(f"Interrupt-IN: {host.interrupt()}")
    host.say_status()
    host.try_whole_command()
    host.say_status()


def two_requests_one_look(host):
    """The second request waits behind the first, or is kept: both come."""
    scene("Two service requests before the host looks")
    host.send("HEAT\n")
    host.send("COOL\n")
    say(f"Interrupt-IN: {host.interrupt()}")
    say(f"Interrupt-IN: {host.interrupt()}")
    say(f"Interrupt-IN: {host.interrupt(limit=300)}")
    host.try_whole_command()


def trigger(host):
    scene("A trigger")
    host.trigger()
    host.try_whole_command()


def look_for_late_answer(host):
    """A read without a question must get nothing: an answer that is here is one to a question that was given up."""
    time.sleep(2.5)
    host.request()
    packet = host.packet(limit=500)
    say(f"Bulk-IN: {packet}")
    if packet != "nothing in time":
        wrong("nothing was asked")
    host.clear()


def clear(host):
    scene("A clear, step by step, while an answer is worked on")
    host.send("TEMP?\n")
    host.request()
    host.initiate_clear()
    host.check_clear()
    say(f"Bulk-IN: {host.packet()}")
    host.check_clear()
    host.clear_halt(BULK_OUT)
    look_for_late_answer(host)
    host.try_whole_command()


def abort_read(host):
    scene("A read is given up, with its tag")
    host.send("TEMP?\n")
    host.request()
    say(f"Bulk-IN: {host.packet(limit=500)}")
    host.initiate_abort(BULK_IN, host.tag)
    host.check_abort(BULK_IN)
    say(f"Bulk-IN: {host.packet()}")
    host.check_abort(BULK_IN)
    look_for_late_answer(host)
    host.try_whole_command()


def cut_off(host):
    scene("A transfer is cut off after the first packet of two, and given up")
    host.send_cut("SETP 27.5\n")
    host.initiate_abort(BULK_OUT, host.tag)
    host.check_abort(BULK_OUT)
    host.clear_halt(BULK_OUT)
    host.try_whole_command()


def broken_header(host):
    scene("A header with a tag and an inverse that do not fit")
    host.send("SETP 99\n", inverse=0)
    host.send("SETP 99\n")
    host.clear_halt(BULK_OUT)
    host.try_whole_command()


def halts(host):
    scene("Halts of all three endpoints, set and ended")
    for endpoint in (BULK_OUT, BULK_IN, INTERRUPT_IN):
        host.set_halt(endpoint)
        host.say_halt(endpoint)
    host.send("HEAT\n")
    host.clear_halt(BULK_OUT)
    host.send("HEAT\n")
    say(f"Bulk-IN: {host.packet()}")
    say(f"Interrupt-IN: {host.interrupt()}")
    host.clear_halt(BULK_IN)
    host.clear_halt(INTERRUPT_IN)
    for endpoint in (BULK_OUT, BULK_IN, INTERRUPT_IN):
        host.say_halt(endpoint)
    say(f"Interrupt-IN: {host.interrupt()}")
    host.try_whole_command()


def set_interface(host):
    scene("SET_INTERFACE ends the halts")
    for endpoint in (BULK_OUT, BULK_IN, INTERRUPT_IN):
        host.set_halt(endpoint)
    host.control("SET_INTERFACE", 0x01, 11, 0, 0, 0)
    for endpoint in (BULK_OUT, BULK_IN, INTERRUPT_IN):
        host.say_halt(endpoint)
    host.try_whole_command()


def old_bytes(host):
    scene("A host leaves old bytes behind a command, up to a multiple of four")
    host.send_over("SETP 19.5\n", "75\n")
    host.say_answer("SETP?\n")


def reading(host):
    """In a process of its own, which is killed."""
    host.send("TEMP?\n")
    host.request()
    say("waits in a read")
    host.packet(limit=60000)
    wrong("the read came back")


def clearing(host):
    host.send("TEMP?\n")
    host.request()
    host.initiate_clear()
    say("waits")
    time.sleep(60)


def cutting(host):
    host.send_cut("SETP 27.5\n")
    say("waits")
    time.sleep(60)


def kill_one_that(does, until):
    """Runs a host of its own until it has said so, and a little longer."""
    with subprocess.Popen([sys.executable, __file__, does], stdout=subprocess.PIPE, text=True) as child:
        for line in child.stdout:
            print(line, end="", flush=True)
            if until in line:
                break
        time.sleep(0.3)
        child.kill()
    say("the process is killed")


def killed_in_a_read():
    scene("A host is killed while it waits in a read")
    kill_one_that("reading", "waits in a read")
    host = Host()
    host.send("SETP?\n")
    host.request()
    host.clear()
    look_for_late_answer(host)
    host.try_whole_command()
    return host


def killed_in_a_message():
    scene("A host is killed between the two packets of a message, and the next one goes on as if nothing were")
    kill_one_that("cutting", "waits")
    host = Host()
    host.send("SETP?\n")
    host.send("SETP?\n")
    host.clear()
    host.say_answer("SETP?\n")
    host.try_whole_command()
    return host


def killed_in_a_clear():
    scene("A host is killed in the middle of a clear: SET_CONFIGURATION is another way back")
    kill_one_that("clearing", "waits")
    host = Host()
    host.initiate_clear()
    host.configure()
    host.clear()
    host.try_whole_command()
    return host


def main():
    if sys.argv[1:]:
        {"reading": reading, "clearing": clearing, "cutting": cutting}[sys.argv[1]](Host())
        return
    host = Host()
    for try_it in (status_byte, two_requests_one_look, trigger, clear, abort_read, cut_off, broken_header, halts, set_interface, old_bytes):
        try_it(host)
    host.leave()
    killed_in_a_read().leave()
    killed_in_a_message().leave()
    killed_in_a_clear().leave(to_driver=True)
    all_said()


main()

/* What goes wrong at a host that uses the driver, the way back that docs/GUIDE.md names, and then a whole command. TEMP? is answered after two
   seconds: the device that answers late. */
#define _GNU_SOURCE
#include "raw.h"

#include <signal.h>
#include <stdlib.h>
#include <string.h>
#include <sys/wait.h>
#include <unistd.h>

#define SHORT_LIMIT 300u
#define LATE 2500u /* by then an answer that takes two seconds is there */

static void clear(int device)
{
    call(device, "clear", USBTMC_IOCTL_CLEAR, NULL);
}

static void read_too_early(int device)
{
    set_limit(device, SHORT_LIMIT);
    send_text(device, "TEMP?\n");
    read_some(device, STORE);
}

static void plain_second_read(int device)
{
    scene("A read times out, and the program reads again");
    read_too_early(device);
    read_some(device, STORE);
    clear(device);
    try_whole_command(device);
}

/* A read without a question must get nothing: an answer that is here is one to a question that was given up. */
static void look_for_late_answer(int device)
{
    wait_milliseconds(LATE);
    set_limit(device, SHORT_LIMIT);
    if (read_some(device, STORE) >= 0)
        wrong("nothing was asked");
    clear(device);
}

static void late_answer(int device)
{
    scene("A read times out, the program clears, and the answer would be there only then");
    read_too_early(device);
    clear(device);
    look_for_late_answer(device);
    try_whole_command(device);
}

static void both_halts(int device)
{
    scene("A read times out and the program reads again: CLEAR_FEATURE on both endpoints is another way back");
    read_too_early(device);
    read_some(device, STORE);
    call(device, "end of the halt of Bulk-OUT", USBTMC_IOCTL_CLEAR_OUT_HALT, NULL);
    call(device, "end of the halt of Bulk-IN", USBTMC_IOCTL_CLEAR_IN_HALT, NULL);
    look_for_late_answer(device);
    try_whole_command(device);
}

/* The driver aborts with the next tag, which is not that of the read. */
static void auto_abort(int device)
{
    uint8_t on = 1, off = 0;

    scene("A read times out with the driver's auto_abort on: its tag is not the read's");
    call(device, "auto_abort on", USBTMC_IOCTL_AUTO_ABORT, &on);
    read_too_early(device);
    read_some(device, STORE);
    call(device, "auto_abort off", USBTMC_IOCTL_AUTO_ABORT, &off);
    clear(device);
    try_whole_command(device);
}

static void abort_ioctl(int device)
{
    scene("A read times out, and the program has the driver abort it: its tag is not the read's");
    read_too_early(device);
    call(device, "abort of Bulk-IN", USBTMC_IOCTL_ABORT_BULK_IN, NULL);
    read_some(device, STORE);
    clear(device);
    try_whole_command(device);
}

/* The abort of another tag is refused with the right one (81). Tags are not said: they go on from job to job. */
static void abort_with_told_tag(int device)
{
    uint8_t answer[2] = {0, 0}, tag;
    struct usbtmc_ctrlrequest request = {.req = {0xA2, 3, 0, BULK_IN, sizeof answer}, .data = answer};

    scene("A read times out, and the program aborts it with the tag that the device tells");
    read_too_early(device);
    tag = newest_tag(device);
    request.req.wValue = tag;
    if (ioctl(device, USBTMC_IOCTL_CTRL_REQUEST, &request) == sizeof answer && answer[0] == USBTMC_STATUS_SUCCESS && answer[1] == tag)
        say("INITIATE_ABORT_BULK_IN: 01 and the tag");
    else
        wrong("INITIATE_ABORT_BULK_IN with %02x: %02x %02x", tag, answer[0], answer[1]);
    read_raw(device, "a packet");
    check_abort_in(device);
    look_for_late_answer(device);
    try_whole_command(device);
}

static int parent;

static void tell_parent(void)
{
    if (write(parent, "", 1) != 1)
        wrong("nobody listens");
}

/* Runs a program that is killed a little after it has told that it is there. */
static void kill_one_that(void (*does)(int device))
{
    int status = 0, ends[2];
    char told;
    pid_t child;

    if (pipe(ends) != 0)
        wrong("there is no pipe: %s", outcome(-1));
    child = fork();
    if (child == 0) {
        close(ends[0]);
        parent = ends[1];
        does(open_device());
        _exit(0);
    }
    close(ends[1]);
    if (read(ends[0], &told, 1) != 1)
        wrong("the program ended too soon");
    close(ends[0]);
    wait_milliseconds(200);
    kill(child, SIGKILL);
    waitpid(child, &status, 0);
    if (WIFSIGNALED(status) && WTERMSIG(status) == SIGKILL)
        say("the program is killed");
    else
        wrong("the program ended by itself");
}

static void sends_half(int device)
{
    set_end(device, false);
    send_text(device, "SETP 27");
    tell_parent();
    for (;;)
        pause();
}

static void half_a_command(int device)
{
    scene("Half a command, and its program dies: a clear drops it");
    kill_one_that(sends_half);
    clear(device);
    send_text(device, "SETP?\n");
    read_some(device, STORE);
    try_whole_command(device);
}

static void half_a_command_without_clear(int device)
{
    uint8_t status = 0xFF;

    scene("Half a command, and its program dies: without a clear the next message is joined to it, and is no command");
    kill_one_that(sends_half);
    set_limit(device, SHORT_LIMIT);
    send_text(device, "SETP?\n");
    say("poll: %s", asks_for_service(device, 5000) ? "a request" : "nothing");
    if (ioctl(device, USBTMC488_IOCTL_READ_STB, &status) < 0)
        wrong("there is no status byte: %s", outcome(-1));
    say("the status byte: %02x", status);
    read_some(device, STORE);
    clear(device);
    try_whole_command(device);
}

static void waits_in_a_read(int device)
{
    set_limit(device, 600);
    send_text(device, "TEMP?\n");
    tell_parent();
    read_some(device, STORE);
}

static void killed_in_a_read(int device)
{
    scene("A program is killed while it waits in a read");
    kill_one_that(waits_in_a_read);
    set_limit(device, SHORT_LIMIT);
    send_text(device, "SETP?\n");
    read_some(device, STORE);
    clear(device);
    try_whole_command(device);
}

static void begins_a_clear(int device)
{
    initiate_clear(device);
    tell_parent();
    for (;;)
        pause();
}

static void killed_in_a_clear(int device)
{
    scene("A program is killed in the middle of a clear: a USB reset helps");
    kill_one_that(begins_a_clear);
    initiate_clear(device);
    clear(device);
    send_text(device, "SETP?\n");
    reset_bus();
    clear(device);
    try_whole_command(device);
}

static void killed_in_a_clear_with_a_read_open(int device)
{
    scene("The same, with a read open and a CHECK as the way back");
    read_too_early(device);
    kill_one_that(begins_a_clear);
    initiate_clear(device);
    check_clear(device);
    read_raw(device, "a packet");
    check_clear(device);
    call(device, "end of the halt of Bulk-OUT", USBTMC_IOCTL_CLEAR_OUT_HALT, NULL);
    try_whole_command(device);
}

static void too_long(int device)
{
    uint8_t bytes[STORE + 1];

    scene("A message of 1,025 bytes");
    memset(bytes, 'x', sizeof bytes);
    send_bytes(device, bytes, sizeof bytes);
    call(device, "end of the halt of Bulk-OUT", USBTMC_IOCTL_CLEAR_OUT_HALT, NULL);
    try_whole_command(device);
}

static void nothing_at_all(int device)
{
    scene("An empty write, and a read of 0 bytes");
    send_text(device, "");
    call(device, "end of the halt of Bulk-OUT", USBTMC_IOCTL_CLEAR_OUT_HALT, NULL);
    try_whole_command(device);
    read_some(device, 0);
    call(device, "end of the halt of Bulk-OUT", USBTMC_IOCTL_CLEAR_OUT_HALT, NULL);
    try_whole_command(device);
}

int main(void)
{
    int device = open_device();

    first_setpoint(94000);
    plain_second_read(device);
    late_answer(device);
    both_halts(device);
    auto_abort(device);
    abort_ioctl(device);
    abort_with_told_tag(device);
    half_a_command(device);
    half_a_command_without_clear(device);
    killed_in_a_read(device);
    killed_in_a_clear(device);
    killed_in_a_clear_with_a_read_open(device);
    too_long(device);
    nothing_at_all(device);
    return all_said();
}

/* Messages and replies through the driver: whole, and in pieces. */
#include "device.h"

#include <string.h>
#include <unistd.h>

static void say_end(int device)
{
    uint8_t attributes = 0xFF;

    if (ioctl(device, USBTMC_IOCTL_MSG_IN_ATTR, &attributes) != 0)
        wrong("the driver does not tell the transfer's attributes: %s", outcome(-1));
    else
        say("the transfer's attributes: %02x", attributes);
}

static void whole(int device)
{
    scene("A question and its answer");
    send_text(device, "*IDN?\n");
    read_some(device, STORE);
    say_end(device);
}

static void asked_twice(int device)
{
    scene("Two questions and one read: the answer is that to the second");
    send_text(device, "*IDN?\n");
    send_text(device, "SETP?\n");
    read_some(device, STORE);
}

static void answer_in_pieces(int device)
{
    size_t left = 116;

    scene("An answer in pieces of 30 bytes");
    send_text(device, "*IDN?\n");
    while (left != 0) {
        ssize_t came = read_some(device, 30);

        if (came <= 0 || (size_t)came > left) {
            wrong("%zu bytes were to come", left);
            return;
        }
        left -= (size_t)came;
        say_end(device);
    }
}

static void answer_byte_by_byte(int device)
{
    uint8_t reply[16];
    size_t length = 0;

    scene("An answer byte by byte");
    send_text(device, "SETP?\n");
    while (length < sizeof reply && read(device, reply + length, 1) == 1)
        if (reply[length++] == '\n')
            break;
    say("read %zu times: %s", length, quoted(reply, length));
}

/* Each piece is a transfer of its own, and the last has EOM. */
static void send_in_pieces(int device, const char *const *pieces, size_t count)
{
    size_t i;

    for (i = 0; i < count; i++) {
        set_end(device, i == count - 1);
        send_text(device, pieces[i]);
    }
    set_end(device, true);
}

static void command_in_pieces(int device)
{
    static const char *const set[] = {"S", "ETP", " 2", "7", ".5", "\n"};
    static const char *const question[] = {"SE", "TP", "?", "\n"};

    scene("A command and a question in pieces");
    send_in_pieces(device, set, sizeof set / sizeof set[0]);
    send_in_pieces(device, question, sizeof question / sizeof question[0]);
    read_some(device, STORE);
}

static void ends_at_a_character(int device)
{
    struct usbtmc_termchar comma = {.term_char = ',', .term_char_enabled = 1};
    struct usbtmc_termchar off = {.term_char = '\n', .term_char_enabled = 0};
    int i;

    scene("TermChar: an answer up to each comma");
    call(device, "TermChar ',' on", USBTMC_IOCTL_CONFIG_TERMCHAR, &comma);
    send_text(device, "*IDN?\n");
    for (i = 0; i < 4; i++) {
        read_some(device, STORE);
        say_end(device);
    }
    call(device, "TermChar off", USBTMC_IOCTL_CONFIG_TERMCHAR, &off);
}

/* The largest message: it is taken whole, and is no command of the thermostat. */
static void longest(int device)
{
    uint8_t bytes[STORE], status = 0xFF;

    scene("The longest message, which is no command");
    memset(bytes, 'x', sizeof bytes);
    send_bytes(device, bytes, sizeof bytes);
    say("poll: %s", asks_for_service(device, 5000) ? "a request" : "nothing");
    if (ioctl(device, USBTMC_IOCTL_GET_STB, &status) != 0)
        wrong("there is no status byte: %s", outcome(-1));
    say("the status byte: %02x", status);
}

int main(void)
{
    int device = open_device();

    first_setpoint(91000);
    whole(device);
    answer_in_pieces(device);
    try_whole_command(device);
    answer_byte_by_byte(device);
    asked_twice(device);
    command_in_pieces(device);
    ends_at_a_character(device);
    longest(device);
    try_whole_command(device);
    return all_said();
}

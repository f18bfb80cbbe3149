/* Nothing that a connection sends reaches another one, and each has a bound:
   - one that has not asked for the device yet is a visitor. It has room for one request, and five seconds. There are 256 at most; behind that the
     oldest has to go, once it has had a fifth of a second, and the others wait at the door;
   - the host has room for one command with its bytes, for what waits in transfers.c, and for what it has not fetched yet. As long as it fetches
     nothing, nothing more is read of it. */
#define _POSIX_C_SOURCE 200809L

#include "server.h"

#include "controller.h"
#include "log.h"
#include "transfers.h"

#include <errno.h>
#include <fcntl.h>
#include <netinet/in.h>
#include <netinet/tcp.h>
#include <poll.h>
#include <string.h>
#include <sys/socket.h>
#include <time.h>
#include <unistd.h>

#define VISITORS 256
#define DOOR 1024     /* connections that wait to be let in */
#define PATIENCE 5000 /* milliseconds that a visitor may stay */
#define COURTESY 200  /* and those that it may stay where others want in */

struct visitor {
    int socket;
    int64_t since;
    size_t length;
    uint8_t bytes[USBIP_IMPORT];
};

#define WAITING_MOST (128u * 1024u) /* bytes that the host has not fetched, from which on it is not read */
#define TURN_MOST (128u * 1024u)    /* bytes of the host's that are read before the others have their turn */

static struct {
    int listener;
    bool is_fast;
    struct visitor visitors[VISITORS]; /* the oldest first */
    int visitor_count;
} server = {.listener = -1};

struct host {
    int socket;         /* -1: there is no host */
    const char *broken; /* why it cannot go on, or NULL */
    bool had_rival;     /* another host has asked for the device meanwhile */

    uint8_t head[USBIP_HEAD];
    size_t head_length;
    struct usbip_command command; /* once its head is whole */
    size_t length;                /* of its bytes */
    size_t wanted;
    uint64_t skipped; /* bytes that are to come and are of no use */
    size_t turn;      /* bytes read in this turn */
    size_t out_length;
};

static struct host host = {.socket = -1};
static uint8_t host_bytes[TRANSFER_LONGEST];
static uint8_t host_out[WAITING_MOST + (TRANSFERS + 1u) * (USBIP_HEAD + TRANSFER_LONGEST_IN)];

static const char gone[] = "the host has gone; the bus is reset";

static int64_t now(void)
{
    struct timespec time;

    clock_gettime(CLOCK_MONOTONIC, &time);
    return (int64_t)time.tv_sec * 1000 + time.tv_nsec / 1000000;
}

/* What the host is to have. */

/* There is always room: transfers that wait, and one return to the command that is read, are less than what is behind WAITING_MOST. */
void transfers_return(const uint8_t *bytes, size_t length)
{
    memcpy(host_out + host.out_length, bytes, length);
    host.out_length += length;
}

void server_flush(void)
{
    ssize_t sent;

    if (host.socket < 0 || host.out_length == 0)
        return;
    sent = send(host.socket, host_out, host.out_length, MSG_NOSIGNAL | MSG_DONTWAIT);
    if (sent > 0) {
        host.out_length -= (size_t)sent;
        memmove(host_out, host_out + sent, host.out_length);
    } else if (sent < 0 && errno != EAGAIN && errno != EINTR) {
        host.broken = gone;
    }
}

/* The host comes and goes. USB/IP carries no reset of the bus: one comes with each. */

static void attach(int socket)
{
    int one = 1;

    setsockopt(socket, IPPROTO_TCP, TCP_NODELAY, &one, sizeof one);
    setsockopt(socket, SOL_SOCKET, SO_KEEPALIVE, &one, sizeof one);
    host = (struct host){.socket = socket};
    server_says("a host attaches the device; the bus is reset");
    wire_event(EVENT_RESET, NULL, 0);
}

static void detach(void)
{
    close(host.socket);
    host.socket = -1;
    transfers_drop();
    server_says(host.broken);
    wire_event(EVENT_RESET, NULL, 0);
}

/* The host's commands. */

#define MOST_ISOCHRONOUS 1024u /* packets that USB/IP allows in one */

static bool is_isochronous(const struct usbip_command *command)
{
    return command->kind == USBIP_SUBMIT && command->isochronous != 0 && command->isochronous != UINT32_MAX;
}

static bool is_too_long(const struct usbip_command *command)
{
    return !command->is_in && command->length > TRANSFER_LONGEST;
}

/* False: it is none, and what is behind it cannot be made out. */
static bool is_command(const struct usbip_command *command)
{
    if (command->device != USBIP_DEVICE || (command->kind != USBIP_SUBMIT && command->kind != USBIP_UNLINK))
        return false;
    return !is_isochronous(command) || command->isochronous <= MOST_ISOCHRONOUS;
}

/* How many bytes follow the head; those of a command that is not served are skipped. */
static void expect_what_follows(const struct usbip_command *command)
{
    size_t data = command->kind == USBIP_SUBMIT && !command->is_in ? command->length : 0;

    host.wanted = 0;
    if (is_isochronous(command))
        host.skipped = (uint64_t)data + (uint64_t)command->isochronous * 16;
    else if (is_too_long(command))
        host.skipped = data;
    else
        host.wanted = data;
}

static void refuse(const struct usbip_command *command, enum usbip_end end)
{
    uint8_t head[USBIP_HEAD];

    usbip_put_submitted(head, command->number, end, 0);
    transfers_return(head, sizeof head);
}

static void do_command(void)
{
    const struct usbip_command *command = &host.command;

    if (command->kind == USBIP_UNLINK)
        transfers_unlink(command);
    else if (is_isochronous(command))
        refuse(command, USBIP_NO_ANSWER);
    else if (is_too_long(command))
        refuse(command, USBIP_TOO_LONG);
    else
        transfers_submit(command, host_bytes);
    host.head_length = 0;
    host.length = 0;
}

/* Reads into a buffer up to `wanted` bytes. False: there is no more for now, or the turn is over. */
static bool read_up_to(uint8_t *bytes, size_t *length, size_t wanted)
{
    ssize_t got;

    if (*length == wanted)
        return true;
    if (host.turn >= TURN_MOST)
        return false;
    got = recv(host.socket, bytes + *length, wanted - *length, MSG_DONTWAIT);
    if (got > 0) {
        *length += (size_t)got;
        host.turn += (size_t)got;
    } else if (got == 0 || (errno != EAGAIN && errno != EINTR)) {
        host.broken = gone;
    }
    return *length == wanted;
}

static bool skip(void)
{
    uint8_t bytes[4096];
    bool whole = true;

    while (host.skipped != 0 && whole) {
        size_t wanted = host.skipped < sizeof bytes ? (size_t)host.skipped : sizeof bytes;
        size_t length = 0;

        whole = read_up_to(bytes, &length, wanted);
        host.skipped -= length;
    }
    return whole;
}

/* Takes one command off the connection. False: it is not whole yet. */
static bool read_command(void)
{
    bool was_whole = host.head_length == USBIP_HEAD;

    if (!read_up_to(host.head, &host.head_length, USBIP_HEAD))
        return false;
    if (!was_whole) {
        host.command = usbip_read(host.head);
        if (!is_command(&host.command)) {
            host.broken = "the host has sent what is no command of USB/IP, and is sent away; the bus is reset";
            return false;
        }
        expect_what_follows(&host.command);
    }
    if (!skip() || !read_up_to(host_bytes, &host.length, host.wanted))
        return false;
    do_command();
    return true;
}

static void serve_host(void)
{
    unsigned commands = 0;

    host.turn = 0;
    while (host.broken == NULL && host.out_length < WAITING_MOST && commands++ < TRANSFERS && read_command())
        ;
}

/* The visitors. */

static void forget(int which)
{
    server.visitor_count--;
    memmove(&server.visitors[which], &server.visitors[which + 1], (size_t)(server.visitor_count - which) * sizeof server.visitors[0]);
}

static void send_away(int which)
{
    close(server.visitors[which].socket);
    forget(which);
}

/* A reply is less than what a new connection has room for: where it cannot be sent whole, the visitor has gone. */
static bool reply(int socket, const uint8_t *bytes, size_t length)
{
    return send(socket, bytes, length, MSG_NOSIGNAL | MSG_DONTWAIT) == (ssize_t)length;
}

static void answer_import(int which)
{
    struct visitor *visitor = &server.visitors[which];
    enum usbip_status status = !usbip_names_device(visitor->bytes) ? USBIP_NO_DEVICE : host.socket >= 0 ? USBIP_BUSY : USBIP_OK;
    uint8_t bytes[USBIP_LONGEST_REPLY];
    int socket = visitor->socket;

    if (status == USBIP_BUSY && !host.had_rival) {
        server_says("another host asks for the device, and is told that it is busy");
        host.had_rival = true;
    }
    if (!reply(socket, bytes, usbip_put_import(bytes, status, server.is_fast)) || status != USBIP_OK) {
        send_away(which);
        return;
    }
    forget(which);
    attach(socket);
}

static void answer_visitor(int which)
{
    uint8_t bytes[USBIP_LONGEST_REPLY];

    if (usbip_request_of(server.visitors[which].bytes) == USBIP_IMPORT_REQUEST) {
        answer_import(which);
        return;
    }
    reply(server.visitors[which].socket, bytes, usbip_put_list(bytes, server.is_fast));
    send_away(which);
}

static size_t wanted_of(const struct visitor *visitor)
{
    if (visitor->length < USBIP_REQUEST)
        return USBIP_REQUEST;
    switch (usbip_request_of(visitor->bytes)) {
    case USBIP_LIST_REQUEST:
        return USBIP_REQUEST;
    case USBIP_IMPORT_REQUEST:
        return USBIP_IMPORT;
    default:
        return 0;
    }
}

/* Exactly the bytes of a request are read: what is behind an import is the host's first command. */
static void hear_visitor(int which)
{
    struct visitor *visitor = &server.visitors[which];
    ssize_t got = recv(visitor->socket, visitor->bytes + visitor->length, wanted_of(visitor) - visitor->length, MSG_DONTWAIT);

    if (got < 0 && (errno == EAGAIN || errno == EINTR))
        return;
    if (got <= 0) {
        send_away(which);
        return;
    }
    visitor->length += (size_t)got;
    if (wanted_of(visitor) == 0) {
        log_line("server", "a connection asks for nothing of USB/IP 1.1.1, and is closed");
        send_away(which);
    } else if (visitor->length == wanted_of(visitor)) {
        answer_visitor(which);
    }
}

static bool has_room(void)
{
    return server.visitor_count < VISITORS || now() - server.visitors[0].since >= COURTESY;
}

/* Most have said already what they want. False: nobody is at the door, or has to wait there. */
static bool let_in(void)
{
    int socket = has_room() ? accept(server.listener, NULL, NULL) : -1;
    struct visitor *visitor;

    if (socket < 0)
        return false;
    fcntl(socket, F_SETFL, fcntl(socket, F_GETFL) | O_NONBLOCK);
    if (server.visitor_count == VISITORS)
        send_away(0);
    visitor = &server.visitors[server.visitor_count++];
    visitor->socket = socket;
    visitor->since = now();
    visitor->length = 0;
    hear_visitor(server.visitor_count - 1);
    return true;
}

static void lose_patience(void)
{
    while (server.visitor_count != 0 && now() - server.visitors[0].since > PATIENCE)
        send_away(0);
}

/* All of them. */

uint16_t server_start(uint16_t port, bool is_fast)
{
    struct sockaddr_in address = {.sin_family = AF_INET, .sin_port = htons(port), .sin_addr.s_addr = htonl(INADDR_LOOPBACK)};
    socklen_t length = sizeof address;
    int one = 1;

    server.is_fast = is_fast;
    server.listener = socket(AF_INET, SOCK_STREAM, 0);
    if (server.listener < 0)
        return 0;
    setsockopt(server.listener, SOL_SOCKET, SO_REUSEADDR, &one, sizeof one);
    fcntl(server.listener, F_SETFL, O_NONBLOCK);
    if (bind(server.listener, (struct sockaddr *)&address, sizeof address) != 0 || listen(server.listener, DOOR) != 0)
        return 0;
    return getsockname(server.listener, (struct sockaddr *)&address, &length) == 0 ? ntohs(address.sin_port) : 0;
}

/* What the host has waiting is asked for only where it is read, and where it has gone it is heard of all the same. */
static short host_events(void)
{
    return (short)((host.out_length < WAITING_MOST ? POLLIN : 0) | (host.out_length != 0 ? POLLOUT : 0));
}

void server_wait(int milliseconds)
{
    struct pollfd polled[VISITORS + 2] = {{.fd = server.listener, .events = has_room() ? POLLIN : 0}, {.fd = host.socket, .events = host_events()}};
    int count = server.visitor_count;
    int i;

    for (i = 0; i < count; i++)
        polled[2 + i] = (struct pollfd){.fd = server.visitors[i].socket, .events = POLLIN};
    if (poll(polled, (nfds_t)(2 + count), milliseconds) < 0)
        return;
    if (host.socket >= 0 && polled[1].revents != 0)
        serve_host();
    if (host.socket >= 0 && host.broken != NULL)
        detach();
    for (i = count - 1; i >= 0; i--)
        if (polled[2 + i].revents != 0)
            hear_visitor(i);
    lose_patience();
    for (i = 0; polled[0].revents != 0 && i < VISITORS && let_in(); i++)
        ;
}

#include "standard.h"

#include "port.h"
#include "trace.h"

#include <string.h>

/* 1209:0001 is a number for tests: put your own. */
static const uint8_t device_descriptor[18] = {18, 1, 0x00, 0x02, 0, 0, 0, 64, 0x09, 0x12, 0x01, 0x00, 0x00, 0x01, 1, 2, 3, 1};

/* What a device that knows both speeds says of itself at the other one. */
static const uint8_t device_qualifier[10] = {10, 6, 0x00, 0x02, 0, 0, 0, 64, 1, 0};

/* One interface of class FE, subclass 03 (USBTMC), protocol 01 (USB488), with Bulk-OUT at 0x01, Bulk-IN at 0x82 and Interrupt-IN at 0x83, which is polled
   every 16 ms: at high speed `interval` is a power. */
#define CONFIGURATION(type, size, interval)                                                                                      \
    {                                                                                                                            \
        9, type, 39, 0, 1, 1, 0, 0x80, 50,                    /* configuration 1, 100 mA */                                      \
            9, 4, 0, 0, 3, 0xFE, 3, 1, 0,                     /* interface 0, three endpoints */                                 \
            7, 5, 0x01, 0x02, (size) & 0xFF, (size) >> 8, 0,  /* Bulk-OUT */                                                     \
            7, 5, 0x82, 0x02, (size) & 0xFF, (size) >> 8, 0,  /* Bulk-IN */                                                      \
            7, 5, 0x83, 0x03, 2, 0, interval                  /* Interrupt-IN: packets of 2 bytes */                             \
    }
#define AS_ITSELF 2
#define AS_OTHER_SPEED 7
static const uint8_t at_full_speed[39] = CONFIGURATION(AS_ITSELF, TMC_FULL_SPEED, 16);
static const uint8_t at_high_speed[39] = CONFIGURATION(AS_ITSELF, TMC_HIGH_SPEED, 8);
static const uint8_t at_full_speed_from_high[39] = CONFIGURATION(AS_OTHER_SPEED, TMC_FULL_SPEED, 16);

/* By their numbers in the device descriptor. VISA names a device by its serial number. */
static const char *const strings[] = {NULL, "Tewennos works", "proving-room thermostat", "00027"};
static const uint8_t languages[4] = {4, 3, 0x09, 0x04}; /* string 0: English */

static const struct standard_answer stalled = {.handshake = HANDSHAKE_STALL};

/* As many bytes as the host asks for, and there are. */
static struct standard_answer send(const uint8_t *setup, const uint8_t *bytes, size_t length)
{
    size_t asked = (size_t)(setup[6] | setup[7] << 8);
    struct standard_answer answer = {.handshake = HANDSHAKE_ACK, .length = asked < length ? asked : length};

    memcpy(answer.bytes, bytes, answer.length);
    return answer;
}

/* A string, in characters of two bytes. */
static struct standard_answer send_string(const uint8_t *setup)
{
    uint8_t bytes[64];
    size_t number = setup[2];
    size_t length = 2;
    const char *character;

    if (number == 0)
        return send(setup, languages, sizeof languages);
    if (number >= sizeof strings / sizeof strings[0])
        return stalled;
    for (character = strings[number]; *character != 0; character++) {
        bytes[length++] = (uint8_t)*character;
        bytes[length++] = 0;
    }
    bytes[0] = (uint8_t)length;
    bytes[1] = 3;
    return send(setup, bytes, length);
}

static struct standard_answer send_descriptor(const uint8_t *setup)
{
    bool is_fast = controller_packet_size() == TMC_HIGH_SPEED;

    switch (setup[3]) {
    case 1:
        return send(setup, device_descriptor, sizeof device_descriptor);
    case 2:
        return send(setup, is_fast ? at_high_speed : at_full_speed, sizeof at_full_speed);
    case 3:
        return send_string(setup);
    case 6: /* a device that knows full speed alone has neither this nor the next */
        return is_fast ? send(setup, device_qualifier, sizeof device_qualifier) : stalled;
    case 7:
        return is_fast ? send(setup, at_full_speed_from_high, sizeof at_full_speed_from_high) : stalled;
    default:
        return stalled;
    }
}

/* The device is powered by the bus and wakes no host, and neither the interface nor endpoint 0 has anything to tell: 0 for all three. */
static struct standard_answer send_no_status(const uint8_t *setup)
{
    static const uint8_t nothing[2] = {0, 0};

    return send(setup, nothing, sizeof nothing);
}

/* It ends the halts of the interface's endpoints: the port is given a CLEAR_FEATURE for each. The data toggles go back to DATA0 as well, which is the
   controller's. */
static void clear_halts(void)
{
    static const uint8_t addresses[] = {0x01, 0x82, 0x83};
    uint8_t bytes[TMC_CONTROL_BUFFER];
    enum handshake handshake;
    size_t length;
    size_t i;

    for (i = 0; i < sizeof addresses; i++) {
        const uint8_t clear_feature[8] = {0x02, 1, 0, 0, addresses[i], 0, 0, 0};
        port_setup(clear_feature, &handshake, bytes, &length);
    }
}

/* The one interface, in its one setting; there is none before the device is configured. */
static bool names_interface(const uint8_t *setup)
{
    return port_is_configured() && setup[2] == 0 && setup[3] == 0 && setup[4] == 0 && setup[5] == 0;
}

static struct standard_answer serve(const uint8_t *setup)
{
    static const struct standard_answer done = {.handshake = HANDSHAKE_ACK};
    static const uint8_t setting = 0;
    const uint8_t configuration = port_is_configured();
    unsigned request = (unsigned)setup[0] << 8 | setup[1];

    switch (request) {
    case 0x8006: /* GET_DESCRIPTOR */
        return send_descriptor(setup);
    case 0x0005: /* SET_ADDRESS, which a controller takes over itself */
        return done;
    case 0x8008: /* GET_CONFIGURATION */
        return send(setup, &configuration, 1);
    case 0x810A: /* GET_INTERFACE */
        return names_interface(setup) ? send(setup, &setting, 1) : stalled;
    case 0x010B: /* SET_INTERFACE */
        if (!names_interface(setup))
            return stalled;
        clear_halts();
        return done;
    case 0x8000: /* GET_STATUS of the device */
        return send_no_status(setup);
    case 0x8100: /* of the interface */
        return names_interface(setup) ? send_no_status(setup) : stalled;
    case 0x8200: /* of endpoint 0, which is never halted */
        return setup[4] == 0 || setup[4] == 0x80 ? send_no_status(setup) : stalled;
    default:
        return stalled;
    }
}

struct standard_answer standard_answers(const uint8_t setup[8])
{
    struct standard_answer answer;

    if (port_setup(setup, &answer.handshake, answer.bytes, &answer.length))
        return answer;
    answer = serve(setup);
    firmware_serves(setup, answer.handshake == HANDSHAKE_ACK, answer.bytes, answer.length);
    return answer;
}

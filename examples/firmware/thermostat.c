#include "thermostat.h"

#include <string.h>

#define HIGHEST 99999 /* degrees, in thousandths: 99.999 */
#define TOLERANCE 100 /* a tenth of a degree */
#define MEASURING 2000 /* milliseconds */

/* 116 bytes: with the 12 of its header it fills two packets of 64, so that an empty one has to close the transfer. */
static const char identity[] = "Tewennos works,proving-room thermostat,serial number 00027,"
                               "firmware 1.0 with the port for USBTMC 1.0 and USB488 1.0\n";
_Static_assert(sizeof identity - 1 == 116, "the scenes show the empty packet");

/* The text without its newline, and without the CR that PyVISA puts before it. */
static size_t without_newline(const uint8_t *message, size_t length)
{
    if (length != 0 && message[length - 1] == '\n')
        length--;
    if (length != 0 && message[length - 1] == '\r')
        length--;
    return length;
}

static bool equals(const uint8_t *message, size_t length, const char *text)
{
    return length == strlen(text) && memcmp(message, text, length) == 0;
}

static bool is_digit(uint8_t character)
{
    return character >= '0' && character <= '9';
}

/* Digits, and where there is a point, one to three behind it. */
static bool read_degrees(const uint8_t *text, size_t length, int32_t *thousandths)
{
    int32_t value = 0;
    size_t behind = 0; /* digits behind the point */
    bool point = false;
    size_t i;

    if (length == 0 || !is_digit(text[0]) || !is_digit(text[length - 1]))
        return false;
    for (i = 0; i < length; i++) {
        if (text[i] == '.' && !point) {
            point = true;
            continue;
        }
        if (!is_digit(text[i]) || behind == 3 || value > HIGHEST)
            return false;
        value = value * 10 + (text[i] - '0');
        behind += point;
    }
    for (; behind < 3; behind++) {
        if (value > HIGHEST)
            return false;
        value *= 10;
    }
    *thousandths = value;
    return value <= HIGHEST;
}

enum request thermostat_reads(const uint8_t *message, size_t length, int32_t *thousandths)
{
    static const char set[] = "SETP ";
    const size_t word = sizeof set - 1;

    length = without_newline(message, length);
    if (equals(message, length, "*IDN?"))
        return ASK_IDENTITY;
    if (equals(message, length, "SETP?"))
        return ASK_SETPOINT;
    if (equals(message, length, "TEMP?"))
        return ASK_TEMPERATURE;
    if (length > word && memcmp(message, set, word) == 0 && read_degrees(message + word, length - word, thousandths))
        return SET_SETPOINT;
    return REFUSED;
}

/* Degrees with all three digits behind the point. */
static size_t write_degrees(int32_t thousandths, uint8_t *text)
{
    static const int32_t places[] = {10000, 1000, 100, 10, 1};
    size_t length = 0;
    size_t i;

    for (i = 0; i < sizeof places / sizeof places[0]; i++) {
        if (i == 2)
            text[length++] = '.';
        text[length++] = (uint8_t)('0' + thousandths / places[i] % 10);
    }
    text[length++] = '\n';
    return length;
}

size_t thermostat_text(const uint8_t *message, size_t length)
{
    size_t shown = 0;

    length = without_newline(message, length);
    while (shown < length && message[shown] >= ' ' && message[shown] <= '~')
        shown++;
    return shown;
}

uint32_t thermostat_takes(enum request question)
{
    return question == ASK_TEMPERATURE ? MEASURING : 0;
}

size_t thermostat_answers(enum request question, int32_t setpoint, int32_t temperature, uint8_t *answer, size_t room)
{
    if (question == ASK_SETPOINT && room >= 7)
        return write_degrees(setpoint, answer);
    if (question == ASK_TEMPERATURE && room >= 7)
        return write_degrees(temperature, answer);
    if (question == ASK_IDENTITY && room >= sizeof identity - 1) {
        memcpy(answer, identity, sizeof identity - 1);
        return sizeof identity - 1;
    }
    return 0;
}

bool thermostat_is_at(int32_t temperature, int32_t setpoint)
{
    return temperature >= setpoint - TOLERANCE && temperature <= setpoint + TOLERANCE;
}

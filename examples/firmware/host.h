/* What a host does on the wire, with a line of words for each event. */
#ifndef HOST_H
#define HOST_H

#include <stdbool.h>
#include <stddef.h>
#include <stdint.h>

/* A setup packet: its request type and number, wValue, wIndex and wLength. */
struct setup {
    const char *name;
    uint8_t type, request;
    uint16_t value, index, length;
};

void host_setup(struct setup setup);
void host_resets(void);
void host_suspends(void);

/* A message, or a part of one where `end` (EOM) is 0, in as many packets as it takes. */
void host_sends(uint8_t tag, uint8_t end, const char *text);

/* The same in one packet, which comes while the firmware has the interrupt masked, and with a request behind it; and how they were answered. */
void host_sends_while_masked(uint8_t tag, const char *text);
void host_sends_and_asks_while_masked(uint8_t tag, const char *text, uint32_t size);
void host_sees_answer(void);
void host_sees_answers(void);

/* The same in one packet, from a buffer in which the three bytes `old` stand behind the text: those that align it are sent as they are. */
void host_sends_over(uint8_t tag, const char *text, const char *old);

/* The same with a tag and an inverse that do not fit. */
void host_sends_damaged(uint8_t tag, const char *text);

void host_triggers(uint8_t tag);

/* REQUEST_DEV_DEP_MSG_IN. */
void host_asks(uint8_t tag, uint32_t size);

/* One poll of Bulk-IN. */
void host_polls(void);

/* Polls until a short packet closes the transfer, or until the device has nothing. */
void host_reads(void);

/* One poll of Interrupt-IN. */
void host_polls_interrupt(void);

/* Whether the thermostat had something to say since this was asked last. */
bool host_heard_thermostat(void);

#endif

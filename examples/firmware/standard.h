/* The setup packets: the port's go to the port, and here are the requests of USB 2.0 that it leaves to the device. */
#ifndef STANDARD_H
#define STANDARD_H

#include "controller.h"

struct standard_answer {
    enum handshake handshake;
    size_t length;
    uint8_t bytes[64];
};

struct standard_answer standard_answers(const uint8_t setup[8]);

#endif

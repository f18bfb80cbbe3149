/* Names of the standard, for whoever tells what is on the wire. */
#ifndef NAMES_H
#define NAMES_H

/* Of a USBTMC status, with which the answer to a class request begins. */
const char *name_of_status(unsigned status);

#endif

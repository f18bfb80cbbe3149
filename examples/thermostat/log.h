/* The wire log: a line for each call of the port. */
#ifndef LOG_H
#define LOG_H

#include <stdbool.h>

/* False: the file cannot be written, and errno says why. Without a log nothing is written. */
bool log_start(const char *path);

#ifdef __GNUC__
__attribute__((format(printf, 2, 3)))
#endif
void log_line(const char *who, const char *format, ...);

#endif

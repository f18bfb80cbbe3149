/* The two instructions that begin and end a counted region: nops with a number in them, `nopl 0x5a0000KK(%rax)`. */
#ifndef MARKS_H
#define MARKS_H

#define MARK_LENGTH 7
#define MARK_BYTES(kind) 0x0f, 0x1f, 0x80, kind, 0x00, 0x00, 0x5a
#define MARK_BEGINS 1
#define MARK_ENDS 2

#endif

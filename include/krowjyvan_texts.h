/*
 * krowjyvan_texts.h: the system's text for krowjyvan_error_text, with the meanings of the keys -1 to -21 in the words of the QL
 * Technical Guide, section 18.1. Lend krowjyvan_system_text with the length KROWJYVAN_SYSTEM_TEXT_LENGTH. The file krowjyvan.text
 * holds the same bytes.
 */
#ifndef KROWJYVAN_TEXTS_H
#define KROWJYVAN_TEXTS_H

#include <stdint.h>

static const uint8_t krowjyvan_system_text[] =
    "\0\026" "operation not complete"            /* -1 */
    "\0\017" "not a valid job"                   /* -2 */
    "\0\015" "out of memory"                     /* -3 */
    "\0\014" "out of range"                      /* -4 */
    "\0\017" "buffer overflow"                   /* -5 */
    "\0\020" "channel not open"                  /* -6 */
    "\0\030" "file or device not found"          /* -7 */
    "\0\023" "file already exists"               /* -8 */
    "\0\025" "file or device in use"             /* -9 */
    "\0\013" "end of file"                       /* -10 */
    "\0\012" "drive full"                        /* -11 */
    "\0\017" "bad device name"                   /* -12 */
    "\0\022" "transmission error"                /* -13 */
    "\0\015" "format failed"                     /* -14 */
    "\0\015" "bad parameter"                     /* -15 */
    "\0\012" "file error"                        /* -16 */
    "\0\023" "error in expression"               /* -17 */
    "\0\023" "arithmetic overflow"               /* -18 */
    "\0\025" "not implemented (yet)"             /* -19 */
    "\0\011" "read only"                         /* -20 */
    "\0\040" "bad line (syntax error in BASIC)"; /* -21 */

/* Less the 0 that C puts behind a string. */
#define KROWJYVAN_SYSTEM_TEXT_LENGTH (sizeof krowjyvan_system_text - 1)

#endif

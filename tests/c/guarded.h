/* Texts in memory that can only be read. The last byte of a text is the last byte of a page, and the page after it
 * cannot be used: a call that writes into a text, or reads past its end, ends the program by a fault. */
#ifndef GUARDED_H
#define GUARDED_H

#include <stddef.h>
#include <stdint.h>

struct guarded {
    uint8_t *writable;
    const uint8_t *readable;
    size_t room;
};

/* Ends the program if the memory cannot be had. */
void make_guarded(struct guarded *guarded, size_t room);
/* Puts a text there and returns where it can be read. The text before it is gone. */
const uint8_t *guard_text(struct guarded *guarded, const uint8_t *bytes, size_t length);
/* Has the program say `what()` and end with status 1 at a fault. */
void say_at_fault(const char *(*what)(void));

#endif

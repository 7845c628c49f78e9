/*
 * answers.h: what the line program and the console answer to a line, as text,
 * from the line's bytes alone.
 */
#ifndef REFERENCE_ANSWERS_H
#define REFERENCE_ANSWERS_H

#include <stddef.h>

#include "calls.h"

/* Bytes that grow at their end. */
struct text {
    char *bytes;
    size_t length;
    size_t room;
};

enum call { OPEN, SEEK, STEP, WINDOW, CHIPS, READING, PLACE_OF, GAP, LINE, CALLS, NO_CALL = CALLS };

/* Which call a line came to, for those who count what was tested. */
struct asked {
    enum call call;
    struct verdict verdict;
    uint64_t signal, prn, place; /* an accepted call's, where its chips begin */
    uint64_t count;              /* chips handed out */
    uint8_t chips[WINDOW_MOST];
    struct channel before;       /* of seek, step and window */
    struct channel after;
};

/* The console keeps the channel that the last call handed back. */
struct console {
    int opened;
    struct channel channel;
};

/* Each adds one answer with its newline. The line comes without its own. */
void answer_line(const char *line, size_t length, int finished, struct text *text, struct asked *asked);
void answer_console(struct console *console, const char *line, size_t length, struct text *text, struct asked *asked);

void put_bytes(struct text *text, const char *bytes, size_t length);
void put_byte(struct text *text, char byte);
void put(struct text *text, const char *format, ...);
void put_channel(struct text *text, const struct channel *channel);

#endif

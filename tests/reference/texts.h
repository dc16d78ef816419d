/*
 * The text form of queries (request i), a second time: written from the request's words and its listed readings, not from the verified code.
 * C99 without a library but for memset and memcpy. Not for two calls at a time: what a call works with is static.
 */
#ifndef TEXTS_H
#define TEXTS_H

#include <stddef.h>
#include <stdint.h>

struct text_answer {
    unsigned refusal; /* 0: accepted */
    size_t place;
    size_t length; /* bytes written */
};

/* a text into the query section of a job; all of `out` is filled, with zeros behind the section */
struct text_answer text_parse(const uint8_t *text, size_t size, uint8_t *out, size_t room);

/* the query of four-word nodes, the last of them the root, into a text; refusals 23 and 30 */
struct text_answer text_write(const uint16_t *query, size_t nodes, uint8_t *out, size_t room);

#endif

/* What the C programs of this folder share. */
#ifndef CHECK_H
#define CHECK_H

#include "marker.h"

#include <stdio.h>
#include <stdlib.h>
#include <string.h>

/* Ends the program where something does not hold. */
#define CHECK(condition) \
    do { \
        if (!(condition)) { \
            fprintf(stderr, "%s:%d: %s\n", __FILE__, __LINE__, #condition); \
            exit(1); \
        } \
    } while (0)

static inline const uint8_t *bytes(const char *text) { return (const uint8_t *)text; }

static inline marker_answer open_texts(marker_document *document, const char *xhtml, const char *css) {
    return marker_open(document, bytes(xhtml), strlen(xhtml), bytes(css), strlen(css));
}

static inline marker_answer apply_text(marker_document *document, const char *line) {
    return marker_apply(document, bytes(line), strlen(line));
}

/* Whether the answer has this code and no place. */
static inline int is_plain(marker_answer answer, uint32_t code) {
    return answer.code == code && !answer.line && !answer.column;
}

/* Whether the dump that is kept is this text. */
static inline int keeps_dump(marker_document *document, const char *text) {
    static uint8_t buffer[4096];
    size_t length = marker_dump_length(document);
    if (length != strlen(text) || marker_dump_read(document, 0, buffer, sizeof buffer) != length) return 0;
    return !memcmp(buffer, text, length);
}

#endif

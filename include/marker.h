/* marker.h: the generated texts of a styled XHTML document (list markers, the texts of ::before and ::after, numbers,
   quotation marks, cross-references), kept right while the document is edited.

   What these functions answer is proved against the definitions in the repository's specs/ folders; docs/embedding.md says
   clause by clause what. The proof holds for a caller that keeps to this page, which nothing checks.

   Texts    are UTF-8, and a length counts bytes. No zero byte ends them; one inside is a character like any other.
   Pointers are never null, not even beside a length or a capacity of 0 (marker_bytes helps). What one points to is there
            for the whole call, no two pointers of a call overlap where one of them is written through, and no other thread
            touches it meanwhile. The library keeps none of them: after the call all buffers are the caller's again.
   Threads  A document is used by one thread, the one that opened it. Different documents share nothing.
   Memory   comes from the program's malloc, realloc and free, which belong together. No call is made from a signal handler,
            nor in a child of fork() while the parent had threads.
   Errors   are codes, and the answer of a call has the place of its fault. After every code but MARKER_OK and
            MARKER_UNLISTED the document, its list and the dump that is kept are as they were before the call. */
#ifndef MARKER_H
#define MARKER_H

#include <stddef.h>
#include <stdint.h>

#ifdef __cplusplus
extern "C" {
#endif

/* A document with its style sheet and a list of lines, or none where it is closed. It begins as MARKER_CLOSED; from then
   on only the calls below read or write the struct. It may be moved in memory, but not copied: of two copies of an open
   document only one may be used, and the other not even be closed. */
typedef struct marker_document {
    void *only_the_library;
} marker_document;

#define MARKER_CLOSED {0}

enum marker_code {
    MARKER_OK = 0,
    MARKER_MEMORY = 1,       /* memory was wanting; the same call may work later */
    MARKER_NOT_OPEN = 2,     /* the document is closed */
    MARKER_IN_USE = 3,       /* marker_open of a document that is open */
    MARKER_NOT_UTF8 = 4,     /* column: how many bytes come before the fault; line: 0, or 1 for the sheet of marker_open */
    MARKER_BAD_DOCUMENT = 5, /* line, column: where it stops being a document, both from 1; the column counts characters */
    MARKER_BAD_LINE = 6,     /* no edit and not `show`: no command, two of them, or `sheet FILE` */
    MARKER_NOT_AN_EDIT = 7,  /* the line is `show` */
    MARKER_NO_PLACE = 8,     /* refused: a path leads to no node, or to none that may be edited so, or an index is past the children */
    MARKER_INTO_ITSELF = 9,  /* the edit is refused: a node would move into itself */
    MARKER_UNLISTED = 10     /* the edit is done, and memory was wanting for the list of changes alone, which is now empty */
};

/* What a call has to say. */
typedef struct marker_answer {
    uint32_t code;           /* one of marker_code */
    size_t line;             /* as told at the code, else 0 */
    size_t column;
} marker_answer;

enum marker_kind { MARKER_NONE = 0, MARKER_MARKER = 1, MARKER_BEFORE = 2, MARKER_AFTER = 3 };

/* A line of the list: a box of an element, and the text that it shows. */
typedef struct marker_line {
    uint32_t kind;           /* one of marker_kind; MARKER_NONE where the list has no line of this index, and then all is 0 */
    uint32_t is_gone;        /* 1 where the box is gone and its element stays */
    size_t depth;            /* how many positions its path has: 0 for the root */
    size_t length;           /* how many bytes its text has; 0 where the box is gone */
} marker_line;

typedef struct marker_census {
    size_t elements, boxes, lines;
} marker_census;

/* Opens a closed document: reads the XHTML and the sheet, and evaluates them. The list is then of all lines, and no dump is
   kept. A sheet has no faults; what is not understood in it is left out. The caller ends it by marker_close, which gives
   its memory back. Both texts are the caller's, and may go once the call has returned.
   Codes: OK, MEMORY, IN_USE, NOT_UTF8, BAD_DOCUMENT. Of several faults IN_USE is told first, then that the XHTML is not
   UTF-8, then that the sheet is not, and then BAD_DOCUMENT. */
marker_answer marker_open(marker_document *document, const uint8_t *xhtml, size_t xhtml_length, const uint8_t *css,
                          size_t css_length);

/* Closes a document and gives its memory back. A closed one stays as it is. It is called by the thread of the document. */
void marker_close(marker_document *document);

/* Does one edit, written as a script of one command; what a script skips may stand around it: `insert /1 0 <li/>`, `remove /0/2`, `move /0 /1 3`,
   `set /0 value 5`, `unset /0 value`. Paths are those of the document before the edit. The list is then of the lines that
   changed, by elements in tree order, and of one element marker, before, after.
   Codes: OK, MEMORY, NOT_OPEN, NOT_UTF8, BAD_LINE, NOT_AN_EDIT, NO_PLACE, INTO_ITSELF, UNLISTED. */
marker_answer marker_apply(marker_document *document, const uint8_t *line, size_t length);

/* Replaces the sheet. The list is then of the lines that changed. Codes: OK, MEMORY, NOT_OPEN, NOT_UTF8, UNLISTED. */
marker_answer marker_replace_sheet(marker_document *document, const uint8_t *css, size_t length);

/* Makes the list one of all lines, in the order of marker_apply. Codes: OK, MEMORY, NOT_OPEN. */
marker_answer marker_list_all(marker_document *document);

/* The list: how many lines it has, and what the line of an index from 0 is. A closed document has none. */
size_t marker_line_count(marker_document *document);
marker_line marker_line_at(marker_document *document, size_t index);

/* Fills `positions`, which has room for `capacity` of them, with the path of a line's element, from the root down, as many
   as fit; answers how many. The rest stays as it was. The path is one of the document as it is now: each edit makes the
   list anew. */
size_t marker_line_path(marker_document *document, size_t index, size_t *positions, size_t capacity);

/* Fills `buffer` with the text of a line from an offset, as many bytes as there are and as fit; answers how many. The rest
   stays as it was. A buffer may end inside a character. */
size_t marker_line_text(marker_document *document, size_t index, size_t offset, uint8_t *buffer, size_t capacity);

/* Makes the dump of the document, in the format of docs/dump-format.md, and keeps it until the next marker_dump or
   marker_close; an edit does not change what is kept. Codes: OK, MEMORY, NOT_OPEN. */
marker_answer marker_dump(marker_document *document);

/* The dump that is kept: its length in bytes, and its bytes from an offset, as many as there are and as fit. Where none is
   kept its length is 0. */
size_t marker_dump_length(marker_document *document);
size_t marker_dump_read(marker_document *document, size_t offset, uint8_t *buffer, size_t capacity);

/* How many elements the document has, how many boxes its evaluation, and how many lines its dump, or SIZE_MAX of what there
   is more of; 0s where it is closed. */
marker_census marker_count(marker_document *document);

/* A pointer that is not null, for the empty texts of C++ and others. */
static inline const uint8_t *marker_bytes(const void *text) { return text ? (const uint8_t *)text : (const uint8_t *)""; }

#ifdef __cplusplus
}
#endif
#endif

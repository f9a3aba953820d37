/* Each allocation fails in turn, until a whole run has all that it asks for: no call says anything but MEMORY or UNLISTED
   then, what it left is as it was, and the call that failed works once there is memory. Linked with --wrap=malloc and
   --wrap=realloc. The last line says how many allocations the run has. */
#include "check.h"

void *__real_malloc(size_t size);
void *__real_realloc(void *block, size_t size);

/* Which allocation fails, and how many there were. */
static long failing, asked;

static int fails(void) { return asked++ == failing; }

void *__wrap_malloc(size_t size) { return fails() ? NULL : __real_malloc(size); }

void *__wrap_realloc(void *block, size_t size) { return fails() ? NULL : __real_realloc(block, size); }

static const char XHTML[] = "<body><ol><li id=\"a\">x</li><li/></ol><a href=\"#a\"/></body>";
static const char CSS[] = "a::after{content:target-counter(attr(href),list-item)}";
static const char OTHER[] = "a::after{content:'!'}";

/* Edits, and the dump after each. */
static const struct {
    const char *line, *dump;
} STEPS[] = {
    {"insert /0 0 <li>new</li>", "/0/0 marker \"1. \"\n/0/1 marker \"2. \"\n/0/2 marker \"3. \"\n/1 after \"2\"\n"},
    {"set /0/1 value 9", "/0/0 marker \"1. \"\n/0/1 marker \"9. \"\n/0/2 marker \"10. \"\n/1 after \"9\"\n"},
    {"move /0/2 /0 0", "/0/0 marker \"1. \"\n/0/1 marker \"2. \"\n/0/2 marker \"9. \"\n/1 after \"9\"\n"},
    {"remove /0/0", "/0/0 marker \"1. \"\n/0/1 marker \"9. \"\n/1 after \"9\"\n"},
    {"unset /0/1 id", "/0/0 marker \"1. \"\n/0/1 marker \"9. \"\n/1 after \"\"\n"},
};
static const char OPENED[] = "/0/0 marker \"1. \"\n/0/1 marker \"2. \"\n/1 after \"1\"\n";

/* The dump as it is now; no allocation fails meanwhile. */
static int dumps(marker_document *document, const char *text) {
    long failing_then = failing, asked_then = asked;
    failing = -1;
    int is_so = marker_dump(document).code == MARKER_OK && keeps_dump(document, text);
    failing = failing_then, asked = asked_then;
    return is_so;
}

static void do_step(marker_document *document, size_t step) {
    const char *before = step ? STEPS[step - 1].dump : OPENED;
    size_t count = marker_line_count(document);
    marker_answer answer = apply_text(document, STEPS[step].line);
    CHECK(answer.code == MARKER_OK || answer.code == MARKER_MEMORY || answer.code == MARKER_UNLISTED);
    if (answer.code == MARKER_MEMORY) {
        CHECK(dumps(document, before) && marker_line_count(document) == count);
        answer = apply_text(document, STEPS[step].line);
        CHECK(answer.code == MARKER_OK);
    }
    CHECK(dumps(document, STEPS[step].dump));
    if (answer.code == MARKER_UNLISTED) CHECK(marker_line_count(document) == 0);
}

static void run(void) {
    marker_document document = MARKER_CLOSED;
    marker_answer answer = open_texts(&document, XHTML, CSS);
    if (answer.code == MARKER_MEMORY) {
        CHECK(!document.only_the_library);
        answer = open_texts(&document, XHTML, CSS);
    }
    CHECK(answer.code == MARKER_OK && dumps(&document, OPENED));
    for (size_t step = 0; step < sizeof STEPS / sizeof *STEPS; step++) do_step(&document, step);
    answer = marker_list_all(&document);
    if (answer.code == MARKER_MEMORY) answer = marker_list_all(&document);
    CHECK(answer.code == MARKER_OK && marker_line_count(&document) == 3);
    answer = marker_dump(&document);
    if (answer.code == MARKER_MEMORY) answer = marker_dump(&document);
    CHECK(answer.code == MARKER_OK && keeps_dump(&document, STEPS[4].dump));
    answer = marker_replace_sheet(&document, bytes(OTHER), strlen(OTHER));
    if (answer.code == MARKER_MEMORY) answer = marker_replace_sheet(&document, bytes(OTHER), strlen(OTHER));
    CHECK(answer.code == MARKER_OK || answer.code == MARKER_UNLISTED);
    CHECK(dumps(&document, "/0/0 marker \"1. \"\n/0/1 marker \"9. \"\n/1 after \"!\"\n"));
    marker_close(&document);
}

int main(void) {
    do {
        asked = 0;
        run();
    } while (asked > failing++);
    printf("allocations: %ld\n", failing - 1);
    CHECK(failing > 10);
    return 0;
}

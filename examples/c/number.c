/* number DOCUMENT SHEET [EDIT]..: writes the generated texts of a document, and then those that each edit changes. */
#include "marker.h"
#include <stdio.h>
#include <stdlib.h>
#include <string.h>

enum { MOST = 1 << 24 };

static size_t read_file(const char *name, uint8_t *bytes) {
    FILE *file = fopen(name, "rb");
    if (!file) perror(name), exit(1);
    size_t length = fread(bytes, 1, MOST, file);
    fclose(file);
    return length;
}

/* Of each path and each text as much as there is room for. */
static void write_list(marker_document *document) {
    static const char *const kinds[] = {"", "marker", "before", "after"};
    static size_t path[1000];
    static uint8_t text[1000];
    for (size_t index = 0; index < marker_line_count(document); index++) {
        marker_line line = marker_line_at(document, index);
        size_t depth = marker_line_path(document, index, path, 1000);
        size_t length = marker_line_text(document, index, 0, text, 1000);
        for (size_t place = 0; place < depth; place++) printf("/%zu", path[place]);
        printf("%s %s %s", depth ? "" : "/", kinds[line.kind], line.is_gone ? "gone" : "");
        fwrite(text, 1, length, stdout);
        putchar('\n');
    }
}

int main(int count, char **words) {
    static uint8_t xhtml[MOST], css[MOST];
    if (count < 3) return fprintf(stderr, "usage: number DOCUMENT SHEET [EDIT]..\n"), 2;
    size_t xhtml_length = read_file(words[1], xhtml), css_length = read_file(words[2], css);
    marker_document document = MARKER_CLOSED;
    marker_answer answer = marker_open(&document, xhtml, xhtml_length, css, css_length);
    if (answer.code == MARKER_OK) write_list(&document);
    for (int word = 3; word < count && answer.code == MARKER_OK; word++) {
        answer = marker_apply(&document, (const uint8_t *)words[word], strlen(words[word]));
        if (answer.code == MARKER_OK) write_list(&document);
    }
    if (answer.code != MARKER_OK) {
        fprintf(stderr, "number: code %u at %zu:%zu\n", (unsigned)answer.code, answer.line, answer.column);
    }
    marker_close(&document);
    return answer.code != MARKER_OK;
}

/* Calls each function, with texts whose lines docs/ has, and says nothing where all is right. */
#include "check.h"

static const char LIST[] = "<ol><li>a</li><li>b</li></ol>";

/* A line of the list as it is wanted; a text of NULL stands for a box that is gone. */
typedef struct wanted {
    size_t depth;
    size_t path[2];
    uint32_t kind;
    const char *text;
} wanted;

static void check_line(marker_document *document, size_t index, const wanted *want) {
    size_t path[3] = {77, 77, 77};
    uint8_t text[64];
    size_t length = want->text ? strlen(want->text) : 0;
    marker_line line = marker_line_at(document, index);
    CHECK(line.kind == want->kind && line.is_gone == !want->text && line.depth == want->depth && line.length == length);
    CHECK(marker_line_path(document, index, path, 3) == want->depth);
    CHECK(!memcmp(path, want->path, want->depth * sizeof *path) && path[want->depth] == 77);
    memset(text, '.', sizeof text);
    CHECK(marker_line_text(document, index, 0, text, sizeof text) == length);
    CHECK(!memcmp(text, want->text ? want->text : "", length) && text[length] == '.');
}

static void check_list(marker_document *document, const wanted *lines, size_t count) {
    CHECK(marker_line_count(document) == count);
    for (size_t index = 0; index < count; index++) check_line(document, index, &lines[index]);
}

#define LISTS(document, ...) \
    check_list(document, (const wanted[]){__VA_ARGS__}, sizeof((const wanted[]){__VA_ARGS__}) / sizeof(wanted))

static void closed_documents(void) {
    marker_document document = MARKER_CLOSED;
    size_t path[1] = {77};
    uint8_t buffer[1] = {'.'};
    CHECK(is_plain(apply_text(&document, "remove /0"), MARKER_NOT_OPEN));
    CHECK(is_plain(apply_text(&document, "nonsense"), MARKER_NOT_OPEN));
    CHECK(is_plain(marker_replace_sheet(&document, bytes("\xff"), 1), MARKER_NOT_OPEN));
    CHECK(is_plain(marker_list_all(&document), MARKER_NOT_OPEN));
    CHECK(is_plain(marker_dump(&document), MARKER_NOT_OPEN));
    CHECK(marker_line_count(&document) == 0 && marker_dump_length(&document) == 0);
    marker_line line = marker_line_at(&document, 0);
    CHECK(line.kind == MARKER_NONE && !line.is_gone && !line.depth && !line.length);
    CHECK(marker_line_path(&document, 0, path, 1) == 0 && path[0] == 77);
    CHECK(marker_line_text(&document, 0, 0, buffer, 1) == 0 && buffer[0] == '.');
    CHECK(marker_dump_read(&document, 0, buffer, 1) == 0 && buffer[0] == '.');
    marker_census census = marker_count(&document);
    CHECK(!census.elements && !census.boxes && !census.lines);
    marker_close(&document);
    CHECK(!document.only_the_library);
}

static void check_opening(const char *xhtml, const char *css, uint32_t code, size_t line, size_t column) {
    marker_document document = MARKER_CLOSED;
    marker_answer answer = open_texts(&document, xhtml, css);
    CHECK(answer.code == code && answer.line == line && answer.column == column);
    CHECK(!document.only_the_library == (code != MARKER_OK));
    marker_close(&document);
}

static void opening(void) {
    check_opening("<p/>", "", MARKER_OK, 0, 0);
    check_opening("<p/>", "}}{\"", MARKER_OK, 0, 0);
    check_opening("", "", MARKER_BAD_DOCUMENT, 1, 1);
    check_opening("<ol><li>", "", MARKER_BAD_DOCUMENT, 1, 9);
    check_opening("<a></b>", "", MARKER_BAD_DOCUMENT, 1, 4);
    check_opening("<p a=\"\" a=\"\">", "", MARKER_BAD_DOCUMENT, 1, 1);
    check_opening("<a>\n</b>", "", MARKER_BAD_DOCUMENT, 2, 1);
    check_opening("<p>\xff</p>", "\xff", MARKER_NOT_UTF8, 0, 3);
    check_opening("<p/>", "p{}\xc3", MARKER_NOT_UTF8, 1, 3);
    check_opening("<p", "\xff", MARKER_NOT_UTF8, 1, 0);

    marker_document document = MARKER_CLOSED;
    CHECK(is_plain(open_texts(&document, LIST, ""), MARKER_OK));
    CHECK(is_plain(open_texts(&document, "<a", ""), MARKER_IN_USE));
    LISTS(&document, {1, {0}, MARKER_MARKER, "1. "}, {1, {1}, MARKER_MARKER, "2. "});
    marker_close(&document);
    CHECK(marker_open(&document, marker_bytes(NULL), 0, marker_bytes(NULL), 0).code == MARKER_BAD_DOCUMENT);
    CHECK(is_plain(open_texts(&document, "<p title=\"t\"/>", "p::before{content:attr(title)}"), MARKER_OK));
    LISTS(&document, {0, {0}, MARKER_BEFORE, "t"});
    marker_close(&document);
    marker_close(&document);
}

static void editing(void) {
    marker_document document = MARKER_CLOSED;
    CHECK(is_plain(open_texts(&document, LIST, ""), MARKER_OK));
    CHECK(is_plain(apply_text(&document, "insert / 0 <li>new</li>"), MARKER_OK));
    LISTS(&document, {1, {0}, MARKER_MARKER, "1. "}, {1, {1}, MARKER_MARKER, "2. "}, {1, {2}, MARKER_MARKER, "3. "});
    CHECK(is_plain(apply_text(&document, "remove /2"), MARKER_OK));
    CHECK(marker_line_count(&document) == 0);
    CHECK(is_plain(apply_text(&document, "set /1 value 5"), MARKER_OK));
    LISTS(&document, {1, {1}, MARKER_MARKER, "5. "});
    CHECK(is_plain(apply_text(&document, "unset /1 value"), MARKER_OK));
    LISTS(&document, {1, {1}, MARKER_MARKER, "2. "});
    CHECK(is_plain(apply_text(&document, "set /0 style display:none"), MARKER_OK));
    LISTS(&document, {1, {0}, MARKER_MARKER, NULL}, {1, {1}, MARKER_MARKER, "1. "});
    CHECK(is_plain(apply_text(&document, "move /0 / 1"), MARKER_OK));
    CHECK(marker_line_count(&document) == 0);
    CHECK(is_plain(marker_list_all(&document), MARKER_OK));
    LISTS(&document, {1, {0}, MARKER_MARKER, "1. "});
    CHECK(is_plain(marker_replace_sheet(&document, bytes("li::after{content:'!'}"), 22), MARKER_OK));
    LISTS(&document, {1, {0}, MARKER_AFTER, "!"});
    marker_census census = marker_count(&document);
    CHECK(census.elements == 3 && census.boxes == 4 && census.lines == 2);
    marker_close(&document);
}

static void refusals(void) {
    static const struct {
        const char *line;
        uint32_t code;
        size_t column;
    } rows[] = {
        {"", MARKER_BAD_LINE, 0},
        {"# note", MARKER_BAD_LINE, 0},
        {"nonsense", MARKER_BAD_LINE, 0},
        {"remove 0", MARKER_BAD_LINE, 0},
        {"remove /00", MARKER_BAD_LINE, 0},
        {"remove /0 ", MARKER_BAD_LINE, 0},
        {"insert / 0 <li>", MARKER_BAD_LINE, 0},
        {"insert / 4294967296 <p/>", MARKER_BAD_LINE, 0},
        {"remove /0\nremove /0", MARKER_BAD_LINE, 0},
        {"sheet house.css", MARKER_BAD_LINE, 0},
        {"undo", MARKER_BAD_LINE, 0},
        {"show", MARKER_NOT_AN_EDIT, 0},
        {"set / title \xc3", MARKER_NOT_UTF8, 12},
        {"remove /", MARKER_NO_PLACE, 0},
        {"remove /2", MARKER_NO_PLACE, 0},
        {"insert / 3 <li/>", MARKER_NO_PLACE, 0},
        {"set /0/0 title x", MARKER_NO_PLACE, 0},
        {"move /0 /0 0", MARKER_INTO_ITSELF, 0},
        {"move /0 /0 5", MARKER_INTO_ITSELF, 0},
    };
    marker_document document = MARKER_CLOSED;
    CHECK(is_plain(open_texts(&document, LIST, ""), MARKER_OK));
    CHECK(is_plain(apply_text(&document, "set /0 value 5"), MARKER_OK));
    for (size_t row = 0; row < sizeof rows / sizeof *rows; row++) {
        marker_answer answer = apply_text(&document, rows[row].line);
        CHECK(answer.code == rows[row].code && answer.line == 0 && answer.column == rows[row].column);
        LISTS(&document, {1, {0}, MARKER_MARKER, "5. "}, {1, {1}, MARKER_MARKER, "6. "});
    }
    marker_answer answer = marker_replace_sheet(&document, bytes("p\xff"), 2);
    CHECK(answer.code == MARKER_NOT_UTF8 && answer.line == 0 && answer.column == 1);
    CHECK(is_plain(marker_dump(&document), MARKER_OK));
    CHECK(keeps_dump(&document, "/0 marker \"5. \"\n/1 marker \"6. \"\n"));
    marker_close(&document);
}

static void reading_in_parts(void) {
    marker_document document = MARKER_CLOSED;
    uint8_t buffer[9] = "........";
    size_t path[2] = {77, 77};
    CHECK(is_plain(open_texts(&document, "<b><i><u/></i></b>", "u::before{content:'\xc3\xbc-text'}"), MARKER_OK));
    CHECK(marker_line_at(&document, 0).length == 7 && marker_line_at(&document, 0).depth == 2);
    CHECK(marker_line_text(&document, 0, 1, buffer, 3) == 3 && !memcmp(buffer, "\xbc-t.....", 8));
    CHECK(marker_line_text(&document, 0, 5, buffer, 8) == 2 && !memcmp(buffer, "xtt.....", 8));
    CHECK(marker_line_text(&document, 0, 7, buffer, 8) == 0 && marker_line_text(&document, 0, SIZE_MAX, buffer, 8) == 0);
    CHECK(marker_line_text(&document, 0, 0, buffer, 0) == 0 && marker_line_text(&document, 1, 0, buffer, 8) == 0);
    CHECK(marker_line_text(&document, SIZE_MAX, 0, buffer, 8) == 0 && !memcmp(buffer, "xtt.....", 8));
    CHECK(marker_line_path(&document, 0, path, 1) == 1 && path[0] == 0 && path[1] == 77);
    CHECK(marker_line_path(&document, 1, path, 2) == 0 && marker_line_path(&document, SIZE_MAX, path, 2) == 0 && path[1] == 77);
    CHECK(marker_line_at(&document, 1).kind == MARKER_NONE && marker_line_at(&document, SIZE_MAX).kind == MARKER_NONE);

    CHECK(marker_dump_length(&document) == 0 && marker_dump_read(&document, 0, buffer, 8) == 0);
    CHECK(is_plain(marker_dump(&document), MARKER_OK));
    CHECK(keeps_dump(&document, "/0/0 before \"\xc3\xbc-text\"\n"));
    CHECK(marker_dump_read(&document, 5, buffer, 6) == 6 && !memcmp(buffer, "before..", 8));
    CHECK(marker_dump_read(&document, 20, buffer, 8) == 2 && !memcmp(buffer, "\"\nfore..", 8));
    CHECK(marker_dump_read(&document, 22, buffer, 8) == 0 && marker_dump_read(&document, SIZE_MAX, buffer, 8) == 0);
    CHECK(is_plain(apply_text(&document, "remove /0/0"), MARKER_OK));
    CHECK(keeps_dump(&document, "/0/0 before \"\xc3\xbc-text\"\n"));
    CHECK(is_plain(marker_dump(&document), MARKER_OK) && keeps_dump(&document, ""));
    marker_close(&document);
    CHECK(marker_dump_length(&document) == 0);
}

/* Documents share nothing, and may be moved in memory. */
static void several(void) {
    marker_document first = MARKER_CLOSED, second = MARKER_CLOSED, moved;
    CHECK(is_plain(open_texts(&first, LIST, ""), MARKER_OK));
    CHECK(is_plain(open_texts(&second, LIST, "li{display:none}"), MARKER_OK));
    CHECK(is_plain(apply_text(&first, "remove /0"), MARKER_OK));
    memcpy(&moved, &first, sizeof moved);
    memset(&first, 0, sizeof first);
    LISTS(&moved, {1, {0}, MARKER_MARKER, "1. "});
    CHECK(marker_line_count(&second) == 0);
    CHECK(marker_count(&second).elements == 3 && marker_count(&moved).elements == 2);
    marker_close(&moved);
    marker_close(&second);
}

int main(void) {
    closed_documents();
    opening();
    editing();
    refusals();
    reading_in_parts();
    several();
    return 0;
}

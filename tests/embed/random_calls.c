/* random_calls SEED COUNT: so many calls that are drawn from a seed, on eight documents, right ones and wrong ones: closed
   documents, texts that are not UTF-8, documents and lines that are none, indices and offsets past the end, no room. Each
   text and each buffer has a block of its own of just its length, so that a step beside it is seen by valgrind. What the
   header promises of every call is checked; the last line says how many calls there were of each code. */
#include "check.h"

enum { DOCUMENTS = 8, MOST = 512 };

static marker_document documents[DOCUMENTS];
static unsigned long codes[MARKER_UNLISTED + 1];
static uint64_t state;

/* A number below `most`, which is not 0. */
static size_t draw(size_t most) {
    state ^= state << 13;
    state ^= state >> 7;
    state ^= state << 17;
    return (size_t)(state >> 11) % most;
}

static const char *const XHTML[] = {
    "<ol><li>a</li><li>b</li></ol>",
    ("<body><section id=\"s0\"><h2>0</h2><ol><li/><li/></ol><p><a href=\"#s1\"/></p></section>"
     "<section id=\"s1\"><h2>1</h2></section></body>"),
    "<p><q>x<q/></q></p>",
    "<ol reversed=\"reversed\"><li/><li value=\"7\"/><li><ol><li/></ol></li></ol>",
    "<b/>",
    "<body><style>li::before{content:'s'}</style><ul><li/></ul></body>",
    "<ol><li>",
    "<p a=\"\" a=\"\"/>",
    "",
    "<p>\xff</p>",
};
static const char *const CSS[] = {
    "",
    ("body{counter-reset:s}section{counter-increment:s}h2::before{content:counter(s)'. '}"
     "a::after{content:target-counter(attr(href),s)}"),
    "li{list-style:none}li::before{content:counters(list-item,'.')}",
    "li{display:none}",
    "q::before,p::after{content:'\xe2\x80\x94' attr(title)}",
    "}{ not a sheet \\",
    "p{\xc3",
};
static const char *const FRAGMENTS[] = {
    "<li/>", "text", "<li>n<b/></li>", "<q>&amp;</q>", "<ol><li/></ol>", "<style>b::after{content:'b'}</style>",
    "<li>", "", "a<b/>", "\xe2\x82",
};
static const char *const ATTRIBUTES[] = {
    "value 3", "title \xc3\xbc", "style display:none", "id s0", "reversed", "href #s0", "start -2", "0 x", "title \xff",
};
static const char *const WORDS[] = {
    "show", "sheet a.css", "undo", "", "# note", "remove", "nonsense", "remove /0\nremove /0",
    "insert / 99999999999999999999 <p/>",
};
#define PICK(table) table[draw(sizeof table / sizeof *table)]

/* A block of these bytes and no more. */
static uint8_t *own(const void *text, size_t length) {
    uint8_t *block = malloc(length);
    CHECK(block);
    memcpy(block, text, length);
    return block;
}

static void path(char *to) {
    size_t depth = draw(4);
    strcpy(to, "/");
    for (size_t place = 0; place < depth; place++) to += sprintf(to, "/%zu", draw(draw(20) ? 3 : 1000));
}

static size_t make_line(char *line) {
    char first[64], second[64];
    size_t kind = draw(8), index = draw(4), length = draw(24);
    const char *fragment = PICK(FRAGMENTS), *attribute = PICK(ATTRIBUTES);
    path(first);
    path(second);
    if (!draw(4)) strcpy(second, first);
    switch (kind) {
    case 0:
    case 1: return (size_t)sprintf(line, "insert %s %zu %s", first, index, fragment);
    case 2: return (size_t)sprintf(line, "remove %s", first);
    case 3: return (size_t)sprintf(line, "move %s %s %zu", first, second, index);
    case 4:
    case 5: return (size_t)sprintf(line, "set %s %s", first, attribute);
    case 6: return (size_t)sprintf(line, "unset %s %s", first, draw(2) ? "style" : "value");
    default: break;
    }
    if (draw(2)) return strlen(strcpy(line, PICK(WORDS)));
    for (size_t at = 0; at < length; at++) line[at] = (char)draw(256);
    return length;
}

/* Checks the code of a call, and that a place comes with the codes that have one alone. */
static uint32_t checked(marker_answer answer, int is_open, uint32_t allowed) {
    CHECK(answer.code <= MARKER_UNLISTED && (allowed >> answer.code & 1));
    CHECK(is_open || answer.code != MARKER_OK);
    if (answer.code == MARKER_BAD_DOCUMENT) CHECK(answer.line >= 1 && answer.column >= 1);
    else if (answer.code == MARKER_NOT_UTF8) CHECK(answer.line <= 1);
    else CHECK(!answer.line && !answer.column);
    codes[answer.code]++;
    return answer.code;
}

#define CODE(name) (1u << MARKER_##name)

static void open_one(marker_document *document) {
    const char *xhtml = PICK(XHTML);
    const char *css = PICK(CSS);
    int was_open = document->only_the_library != NULL;
    size_t xhtml_length = strlen(xhtml), css_length = strlen(css);
    uint8_t *first = own(xhtml, xhtml_length), *second = own(css, css_length);
    marker_answer answer = marker_open(document, first, xhtml_length, second, css_length);
    uint32_t code = checked(answer, 1, CODE(OK) | CODE(IN_USE) | CODE(NOT_UTF8) | CODE(BAD_DOCUMENT));
    CHECK((code == MARKER_IN_USE) == was_open);
    CHECK((document->only_the_library != NULL) == (was_open || code == MARKER_OK));
    free(first);
    free(second);
}

/* A number that says what the list is. */
static uint64_t of_list(marker_document *document) {
    uint64_t sum = marker_line_count(document);
    for (size_t index = 0; index < marker_line_count(document); index++) {
        marker_line line = marker_line_at(document, index);
        uint8_t *text = malloc(line.length);
        size_t *positions = malloc(line.depth * sizeof *positions);
        CHECK(text && positions && line.kind >= MARKER_MARKER && line.kind <= MARKER_AFTER);
        CHECK(line.is_gone <= 1 && !(line.is_gone && line.length));
        CHECK(marker_line_text(document, index, 0, text, line.length) == line.length);
        CHECK(marker_line_path(document, index, positions, line.depth) == line.depth);
        sum = sum * 31 + line.kind + 5 * line.is_gone;
        for (size_t at = 0; at < line.length; at++) sum = sum * 257 + text[at];
        for (size_t at = 0; at < line.depth; at++) sum = sum * 1021 + positions[at];
        free(text);
        free(positions);
    }
    return sum;
}

static void edit_one(marker_document *document) {
    char line[MOST];
    int is_open = document->only_the_library != NULL;
    marker_census census = marker_count(document);
    uint64_t list = of_list(document);
    size_t length = make_line(line);
    uint8_t *text = own(line, length);
    uint32_t never = CODE(MEMORY) | CODE(IN_USE) | CODE(BAD_DOCUMENT) | CODE(UNLISTED);
    uint32_t code = checked(marker_apply(document, text, length), is_open, ~never);
    free(text);
    CHECK((code == MARKER_NOT_OPEN) == !is_open);
    if (code != MARKER_OK) {
        marker_census now = marker_count(document);
        CHECK(of_list(document) == list);
        CHECK(now.elements == census.elements && now.boxes == census.boxes && now.lines == census.lines);
    }
}

static void style_one(marker_document *document) {
    const char *css = PICK(CSS);
    size_t length = strlen(css);
    int is_open = document->only_the_library != NULL;
    uint64_t list = of_list(document);
    uint8_t *text = own(css, length);
    marker_answer answer = marker_replace_sheet(document, text, length);
    uint32_t code = checked(answer, is_open, CODE(OK) | CODE(NOT_OPEN) | CODE(NOT_UTF8));
    free(text);
    CHECK((code == MARKER_NOT_OPEN) == !is_open && (code == MARKER_OK || of_list(document) == list));
}

/* An index or an offset: mostly one that is there, or just past the end, or far from it. */
static size_t near(size_t count) {
    switch (draw(8)) {
    case 0: return SIZE_MAX - draw(3);
    case 1: return count + draw(3);
    default: return draw(count + 1);
    }
}

static void check_filled(const uint8_t *buffer, size_t filled, size_t capacity, size_t length, size_t offset) {
    size_t there = offset < length ? length - offset : 0;
    CHECK(filled == (there < capacity ? there : capacity));
    for (size_t at = filled; at < capacity; at++) CHECK(buffer[at] == 0xee);
}

static uint8_t *room(size_t capacity) {
    uint8_t *buffer = malloc(capacity);
    CHECK(buffer);
    memset(buffer, 0xee, capacity);
    return buffer;
}

static void read_text(marker_document *document) {
    size_t index = near(marker_line_count(document)), capacity = draw(12);
    marker_line line = marker_line_at(document, index);
    if (index < marker_line_count(document)) CHECK(line.kind != MARKER_NONE);
    else CHECK(!line.kind && !line.is_gone && !line.depth && !line.length);
    size_t offset = near(line.length);
    uint8_t *buffer = room(capacity);
    check_filled(buffer, marker_line_text(document, index, offset, buffer, capacity), capacity, line.length, offset);
    free(buffer);
}

static void read_path(marker_document *document) {
    size_t index = near(marker_line_count(document)), capacity = draw(5), size = capacity * sizeof(size_t);
    size_t depth = marker_line_at(document, index).depth;
    uint8_t *buffer = room(size);
    size_t filled = marker_line_path(document, index, (size_t *)(void *)buffer, capacity);
    check_filled(buffer, filled * sizeof(size_t), size, depth * sizeof(size_t), 0);
    free(buffer);
}

static void read_dump(marker_document *document) {
    size_t length = marker_dump_length(document), offset = near(length), capacity = draw(40);
    uint8_t *buffer = room(capacity);
    check_filled(buffer, marker_dump_read(document, offset, buffer, capacity), capacity, length, offset);
    free(buffer);
}

static void show_one(marker_document *document) {
    int is_open = document->only_the_library != NULL;
    uint64_t list = of_list(document);
    checked(marker_dump(document), is_open, CODE(OK) | CODE(NOT_OPEN));
    CHECK(of_list(document) == list);
    size_t lines = 0, length = marker_dump_length(document);
    uint8_t *buffer = room(length);
    CHECK(marker_dump_read(document, 0, buffer, length) == length);
    for (size_t at = 0; at < length; at++) lines += buffer[at] == '\n';
    CHECK(lines == marker_count(document).lines);
    free(buffer);
}

static void list_one(marker_document *document) {
    int is_open = document->only_the_library != NULL;
    checked(marker_list_all(document), is_open, CODE(OK) | CODE(NOT_OPEN));
    CHECK(marker_line_count(document) == marker_count(document).lines);
}

static void close_one(marker_document *document) {
    marker_close(document);
    CHECK(!document->only_the_library && !marker_count(document).elements);
}

/* Moves a document to another place in memory, where a closed one is. */
static void move_one(marker_document *document) {
    marker_document *other = &documents[draw(DOCUMENTS)];
    if (other == document || other->only_the_library) return;
    memcpy(other, document, sizeof *other);
    memset(document, 0, sizeof *document);
}

int main(int count, char **words) {
    static void (*const calls[])(marker_document *) = {
        open_one, edit_one, edit_one, edit_one, edit_one, edit_one, style_one, read_text, read_text,
        read_path, read_path, read_dump, read_dump, show_one, list_one, move_one,
    };
    CHECK(count == 3);
    state = 88172645463325252u + strtoull(words[1], NULL, 10);
    for (unsigned long left = strtoul(words[2], NULL, 10); left; left--) {
        marker_document *document = &documents[draw(DOCUMENTS)];
        if (!document->only_the_library && draw(2)) open_one(document);
        else if (!draw(40)) close_one(document);
        else PICK(calls)(document);
    }
    for (size_t at = 0; at < DOCUMENTS; at++) close_one(&documents[at]);
    printf("codes:");
    for (size_t code = 0; code <= MARKER_UNLISTED; code++) printf(" %lu", codes[code]);
    printf("\n");
    return 0;
}

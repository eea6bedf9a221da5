/* md4c as a filter from standard input to standard output, with nothing beyond CommonMark. */
#include <md4c-html.h>
#include <stdio.h>
#include <stdlib.h>
#include <string.h>

struct text {
    char *bytes;
    size_t length, room;
};

static void put(const MD_CHAR *bytes, MD_SIZE length, void *to) {
    struct text *text = to;
    if (text->length + length > text->room) {
        while (text->length + length > text->room) text->room = text->room ? text->room * 2 : 1 << 16;
        text->bytes = realloc(text->bytes, text->room);
        if (!text->bytes) abort();
    }
    memcpy(text->bytes + text->length, bytes, length);
    text->length += length;
}

int main(void) {
    struct text given = {0}, made = {0};
    char part[1 << 16];
    size_t length;
    while ((length = fread(part, 1, sizeof part, stdin)) > 0) put(part, length, &given);
    const char *bytes = given.bytes ? given.bytes : "";
    if (md_html(bytes, given.length, put, &made, MD_DIALECT_COMMONMARK, MD_HTML_FLAG_XHTML)) return 1;
    return fwrite(made.bytes, 1, made.length, stdout) != made.length;
}

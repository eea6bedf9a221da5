/* Calls libcmk for .ci/embedding, as C and as C++.
 *
 *   call html|tree|json|rewrite|into BYTES BLOCKS INLINES FLAGS     on standard input: its output, or the line of its fault and status 1;
 *                     FLAGS has 0 or 1 for each of older, strike, no_html and web_links
 *   call rooms        the HTML of a text into rooms of every size, and a line into each
 *   call lines        the line of each number at each place up to 20, behind both
 *   call nothing      a null text of no bytes, a null room, and outputs of any bytes or not set
 *   call free         the exported cmk_free
 *   call blocks       the size of the block of malloc that HTML comes in
 *   call threads      four threads at once
 *   call bytes        each value of the byte of each rule: all but zero turn it on
 */
#include <cmk.h>
#include <dlfcn.h>
#include <malloc.h>
#include <pthread.h>
#include <stddef.h>
#include <stdio.h>
#include <string.h>

typedef uint32_t call(const char *, size_t, const cmk_options *, cmk_output *);

/* Puts the line of a fault to standard error. */
static int tell(uint32_t number, size_t place) {
    char line[CMK_LINE_ROOM];
    cmk_filled filled;
    if (cmk_fault_text(number, place, line, sizeof line, &filled) != CMK_DONE || strlen(line) != filled.length) {
        return 3;
    }
    fputs(line, stderr);
    return 1;
}

static int into(const char *text, size_t length, const cmk_options *options) {
    size_t size = 4 * length + 4000;
    char *room = (char *)malloc(size);
    cmk_filled filled;
    uint32_t number = cmk_html_into(text, length, options, room, size, &filled);
    if (number == CMK_DONE) {
        fwrite(room, 1, filled.length, stdout);
    }
    free(room);
    return number == CMK_DONE ? 0 : tell(number, filled.place);
}

static int one(call *made_by, const char *text, size_t length, const cmk_options *options) {
    cmk_output output = CMK_OUTPUT;
    uint32_t number = made_by(text, length, options, &output);
    if (number == CMK_DONE) {
        fwrite(output.bytes, 1, output.length, stdout);
        if (output.size != output.length + 1 || output.bytes[output.length] != 0 || output.place != 0) {
            return 3;
        }
    } else if (output.size != 0 || output.length != 0) {
        return 3;
    }
    cmk_free(&output);
    return number == CMK_DONE ? 0 : tell(number, output.place);
}

/* Returns whether the room has the output with a NUL behind it, and is else as it was; or is as it was where it is too small. */
static int is_right(uint32_t number, const char *room, size_t size, size_t length, const char *wanted) {
    size_t behind = 0, at;
    if (length != strlen(wanted) || number != (uint32_t)(size > length ? CMK_DONE : CMK_NO_ROOM)) {
        return 0;
    }
    if (number == CMK_DONE) {
        behind = length + 1;
        if (memcmp(room, wanted, behind) != 0) {
            return 0;
        }
    }
    for (at = behind; at < 100; at++) {
        if (room[at] != '.') {
            return 0;
        }
    }
    return 1;
}

static int rooms(void) {
    char room[100];
    cmk_options options = CMK_OPTIONS;
    size_t size;
    for (size = 0; size <= 40; size++) {
        cmk_filled html, line;
        uint32_t number;
        memset(room, '.', sizeof room);
        number = cmk_html_into("a & b\n", 6, &options, room, size, &html);
        if (!is_right(number, room, size, html.length, "<p>a &amp; b</p>\n") || html.place != 0) {
            return 3;
        }
        memset(room, '.', sizeof room);
        number = cmk_fault_text(CMK_NOT_UTF8, 7, room, size, &line);
        if (!is_right(number, room, size, line.length, "cmk: F1 not UTF-8 at byte 7\n") || line.place != 0) {
            return 3;
        }
    }
    return 0;
}

static int lines(void) {
    uint32_t number;
    size_t place;
    for (number = 0; number <= 14; number++) {
        for (place = 0; place <= 20; place++) {
            char line[CMK_LINE_ROOM];
            cmk_filled filled;
            if (cmk_fault_text(number, place, line, sizeof line, &filled) == CMK_DONE) {
                printf("%u %u %s", (unsigned)number, (unsigned)place, line);
            }
        }
    }
    return 0;
}

static call *const calls[] = {cmk_html, cmk_tree, cmk_json, cmk_rewrite};

/* Returns whether each call does the same with an output that holds this, for a null text and for a text with a fault. */
static int any_output(cmk_output held) {
    cmk_options options = CMK_OPTIONS;
    size_t at, empty = sizeof "{\"type\":\"root\",\"data\":{\"lines\":[1,0]},\"children\":[]}" - 1;
    int is_right = 1;
    for (at = 0; at < sizeof calls / sizeof *calls; at++) {
        cmk_output done = held, refused = held;
        uint32_t numbers[2];
        numbers[0] = calls[at](NULL, 0, &options, &done);
        numbers[1] = calls[at]("a\xff", 2, &options, &refused);
        is_right = is_right && numbers[0] == CMK_DONE && done.length == (calls[at] == cmk_json ? empty : 0) && done.size == done.length + 1;
        is_right = is_right && numbers[1] == CMK_NOT_UTF8 && refused.length == 0 && refused.size == 0 && refused.place == 1;
        cmk_free(&done);
        cmk_free(&refused);
    }
    return is_right;
}

static int nothing(void) {
    cmk_options options = CMK_OPTIONS;
    cmk_output output, unset;
    cmk_filled filled;
    int value, is_right = cmk_html_into(NULL, 0, &options, NULL, 0, &filled) == CMK_NO_ROOM && filled.length == 0;
    for (value = 0; value < 256; value++) {
        memset(&output, value, sizeof output);
        is_right = is_right && any_output(output);
    }
    is_right = is_right && cmk_html(NULL, 0, &options, &unset) == CMK_DONE && unset.length == 0 && unset.size == 1;
    cmk_free(&unset);
    return is_right ? 0 : 3;
}

/* The exported function has the name of the header's, so it is looked for by that. */
static int exported(void) {
    cmk_options options = CMK_OPTIONS;
    cmk_output output = CMK_OUTPUT;
    void (*release)(cmk_output *);
    void *library = dlopen(NULL, RTLD_LAZY);
    *(void **)&release = dlsym(library, "cmk_free");
    if (!release || cmk_html("a", 1, &options, &output) != CMK_DONE) {
        return 3;
    }
    release(&output);
    if (output.size != 0 || output.length != 0 || *output.bytes != 0) {
        return 3;
    }
    release(&output);
    return dlclose(library) == 0 ? 0 : 3;
}

/* Returns how many bytes the block of a text's HTML has, for the text so many times. */
static size_t block_of(const char *text, size_t times, size_t *length) {
    cmk_options options = CMK_OPTIONS;
    cmk_output output = CMK_OUTPUT;
    size_t count = strlen(text), at, size;
    char *whole = (char *)malloc(count * times);
    for (at = 0; at < times; at++) {
        memcpy(whole + at * count, text, count);
    }
    cmk_html(whole, count * times, &options, &output);
    *length = output.length;
    size = malloc_usable_size((void *)output.bytes);
    cmk_free(&output);
    free(whole);
    return size;
}

/* A short output has little more than its bytes, and a long one no more. */
static int blocks(void) {
    static const size_t times[] = {1, 10, 1000, 30000};
    size_t at;
    for (at = 0; at < sizeof times / sizeof times[0]; at++) {
        size_t length, size = block_of("a *b* c\n\n", times[at], &length);
        if (size > (length < 40960 ? 2 * length + 80 : length + 5000)) {
            printf("%zu bytes in a block of %zu\n", length, size);
            return 3;
        }
    }
    return 0;
}

static const char *const texts[] = {"# a\n\n*b*\n", "> - [c]\n\n[c]: /d\n", "```\n&\n```\n", "a\xff"};
static const char *const wanted[] = {"<h1>a</h1>\n<p><em>b</em></p>\n", "<blockquote>\n<ul>\n<li><a href=\"/d\">c</a></li>\n</ul>\n</blockquote>\n",
                                     "<pre><code>&amp;\n</code></pre>\n", ""};

static void *work(void *told) {
    static const cmk_options options = CMK_OPTIONS;
    size_t first = (size_t)told, turn;
    for (turn = 0; turn < 4000; turn++) {
        size_t at = (first + turn) % 4;
        cmk_output output = CMK_OUTPUT;
        uint32_t number = cmk_html(texts[at], strlen(texts[at]), &options, &output);
        int is_as_wanted = number == (uint32_t)(at == 3 ? CMK_NOT_UTF8 : CMK_DONE) && strcmp(at == 3 ? "" : output.bytes, wanted[at]) == 0;
        cmk_free(&output);
        if (!is_as_wanted) {
            return told;
        }
    }
    return NULL;
}

static int threads(void) {
    pthread_t started[4];
    size_t at;
    int status = 0;
    for (at = 0; at < 4; at++) {
        if (pthread_create(&started[at], NULL, work, (void *)(at + 1)) != 0) {
            return 3;
        }
    }
    for (at = 0; at < 4; at++) {
        void *wrong;
        pthread_join(started[at], &wrong);
        status = wrong == NULL ? status : 3;
    }
    return status;
}

/* The HTML of a text on which each rule shows, with this value in the byte of one. */
static cmk_output with_byte(size_t place, int value) {
    static const char text[] = "~~a~~ <b>c</b> [d](ftp:e)\n\n<source>x\n";
    cmk_options options = CMK_OPTIONS;
    cmk_output output = CMK_OUTPUT;
    memset((char *)&options + place, value, 1);
    cmk_html(text, sizeof text - 1, &options, &output);
    return output;
}

static int bytes(void) {
    const size_t places[] = {offsetof(cmk_options, older), offsetof(cmk_options, strike), offsetof(cmk_options, no_html), offsetof(cmk_options, web_links)};
    size_t at;
    int status = 0, value;
    for (at = 0; at < sizeof places / sizeof *places; at++) {
        cmk_output off = with_byte(places[at], 0), on = with_byte(places[at], 1);
        for (value = 1; value < 256; value++) {
            cmk_output output = with_byte(places[at], value);
            if (output.length == 0 || strcmp(output.bytes, off.bytes) == 0 || strcmp(output.bytes, on.bytes) != 0) {
                status = 3;
            }
            cmk_free(&output);
        }
        cmk_free(&off);
        cmk_free(&on);
    }
    return status;
}

int main(int count, char **words) {
    static char text[1 << 20];
    const char *name = count > 1 ? words[1] : "";
    cmk_options options = CMK_OPTIONS;
    size_t length;
    if (count < 6 || strlen(words[5]) != 4) {
        return strcmp(name, "rooms") == 0 ? rooms()
               : strcmp(name, "lines") == 0 ? lines()
               : strcmp(name, "nothing") == 0 ? nothing()
               : strcmp(name, "free") == 0 ? exported()
               : strcmp(name, "blocks") == 0 ? blocks()
               : strcmp(name, "threads") == 0 ? threads()
               : strcmp(name, "bytes") == 0 ? bytes() : 2;
    }
    options.bytes = strtoul(words[2], NULL, 10);
    options.blocks = strtoul(words[3], NULL, 10);
    options.inlines = strtoul(words[4], NULL, 10);
    options.older = words[5][0] == '1';
    options.strike = words[5][1] == '1';
    options.no_html = words[5][2] == '1';
    options.web_links = words[5][3] == '1';
    length = fread(text, 1, sizeof text, stdin);
    return strcmp(name, "html") == 0 ? one(cmk_html, text, length, &options)
           : strcmp(name, "tree") == 0 ? one(cmk_tree, text, length, &options)
           : strcmp(name, "json") == 0 ? one(cmk_json, text, length, &options)
           : strcmp(name, "rewrite") == 0 ? one(cmk_rewrite, text, length, &options)
           : strcmp(name, "into") == 0 ? into(text, length, &options) : 2;
}

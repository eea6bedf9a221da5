/* Measures libcmk next to cmark and md4c in one process: a line for each text and each library. bench/embedded calls it.
 *
 *   embedded TURNS (FILE TIMES)..     each library makes the HTML of the file's text TIMES times in each of its turns, which alternate
 *
 * The time is the least processor time of the turns. A call is from the text to the HTML in memory that is then freed.
 */
#define _GNU_SOURCE
#include <cmark.h>
#include <cmk.h>
#include <md4c-html.h>
#include <stdio.h>
#include <string.h>
#include <time.h>

struct grown {
    char *bytes;
    size_t length, room;
};

static void take(const MD_CHAR *text, MD_SIZE length, void *told) {
    struct grown *to = told;
    if (to->length + length > to->room) {
        to->room = (to->length + length) * 2;
        to->bytes = realloc(to->bytes, to->room);
    }
    memcpy(to->bytes + to->length, text, length);
    to->length += length;
}

static size_t by_cmk(const char *text, size_t length) {
    cmk_options options = CMK_OPTIONS;
    cmk_output output = CMK_OUTPUT;
    size_t made;
    cmk_html(text, length, &options, &output);
    made = output.length;
    cmk_free(&output);
    return made;
}

static size_t by_cmark(const char *text, size_t length) {
    char *html = cmark_markdown_to_html(text, length, CMARK_OPT_UNSAFE);
    size_t made = strlen(html);
    free(html);
    return made;
}

static size_t by_md4c(const char *text, size_t length) {
    struct grown html = {NULL, 0, 0};
    md_html(text, (MD_SIZE)length, take, &html, MD_DIALECT_COMMONMARK, 0);
    free(html.bytes);
    return html.length;
}

static double seconds(void) {
    struct timespec now;
    clock_gettime(CLOCK_PROCESS_CPUTIME_ID, &now);
    return (double)now.tv_sec + (double)now.tv_nsec * 1e-9;
}

static void measure(const char *file, long times, int turns) {
    static const struct {
        const char *name;
        size_t (*made_by)(const char *, size_t);
    } libraries[] = {{"libcmk", by_cmk}, {"cmark", by_cmark}, {"md4c", by_md4c}};
    double least[3] = {1e9, 1e9, 1e9};
    size_t made[3] = {0, 0, 0};
    FILE *from = fopen(file, "rb");
    static char text[32 << 20];
    size_t length = fread(text, 1, sizeof text, from);
    int turn, at;
    fclose(from);
    for (turn = 0; turn < turns; turn++) {
        for (at = 0; at < 3; at++) {
            double began = seconds(), took;
            for (long time = 0; time < times; time++) {
                made[at] = libraries[at].made_by(text, length);
            }
            took = seconds() - began;
            least[at] = took < least[at] ? took : least[at];
        }
    }
    for (at = 0; at < 3; at++) {
        double each = least[at] / (double)times;
        printf("%9zu bytes  %-7s %10.2f us  %10.0f calls/s  %7.1f MB/s  ratio to cmark %.2f  HTML of %zu bytes\n", length, libraries[at].name,
               each * 1e6, 1 / each, (double)length / each / 1e6, least[at] / least[1], made[at]);
    }
}

int main(int count, char **words) {
    for (int at = 2; at + 1 < count; at += 2) {
        measure(words[at], atol(words[at + 1]), atoi(words[1]));
    }
    return 0;
}

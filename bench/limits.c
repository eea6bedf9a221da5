/* Measures the least that a renderer of a text does, each step by itself and with nothing else.

     limits FILE BYTES

   The line has microseconds of a processor, the least of fifteen turns: to copy the text once, to check that it is UTF-8, to find its line
   feeds, to find the bytes with which inline markup may begin, to copy it with its `&`, `<`, `>` and quotation marks escaped, and to touch
   BYTES of new memory, as many as its HTML has. All but the last go by 16 bytes at a time, with the instructions that cmk is built for. */
#define _GNU_SOURCE
#include <smmintrin.h>
#include <stdio.h>
#include <stdlib.h>
#include <string.h>
#include <sys/mman.h>
#include <time.h>

enum { TURNS = 15, LANES = 16, PAGE = 4096, LONGEST = 6 };

typedef struct {
    const char *text;
    size_t length;
    char *room; /* LONGEST times the length */
    size_t html;
} Task;

/* By the clock of the thread: that of a process with a limit of time moves by ticks of milliseconds. */
static double seconds(void) {
    struct timespec now;
    clock_gettime(CLOCK_THREAD_CPUTIME_ID, &now);
    return (double)now.tv_sec + (double)now.tv_nsec * 1e-9;
}

static __m128i lanes(const char *at) { return _mm_loadu_si128((const __m128i *)at); }

/* Which of 16 bytes are in a table, in which each byte has the position that its lower four bits name. */
static int found(__m128i table, __m128i bytes) {
    __m128i looked_up = _mm_shuffle_epi8(table, _mm_and_si128(bytes, _mm_set1_epi8(15)));
    return _mm_movemask_epi8(_mm_cmpeq_epi8(looked_up, bytes));
}

static size_t copy(const Task *task) {
    memcpy(task->room, task->text, task->length);
    return (size_t)task->room[task->length / 2];
}

/* The check by three tables of Keiser and Lemire, which cmk's `simdutf8` makes too, with its short way for 64 bytes of ASCII. */
static __m128i bad_lanes(__m128i bytes, __m128i before) {
    const __m128i high = _mm_setr_epi8(2, 2, 2, 2, 2, 2, 2, 2, -128, -128, -128, -128, 0x21, 1, 0x15, 0x49);
    const __m128i low = _mm_setr_epi8(-25, -93, -125, -125, -117, -53, -53, -53, -53, -53, -53, -53, -53, -37, -53, -53);
    const __m128i next = _mm_setr_epi8(1, 1, 1, 1, 1, 1, 1, 1, -26, -82, -70, -70, 1, 1, 1, 1);
    const __m128i four = _mm_set1_epi8(15);
    __m128i one = _mm_alignr_epi8(bytes, before, 15);
    __m128i two = _mm_alignr_epi8(bytes, before, 14);
    __m128i three = _mm_alignr_epi8(bytes, before, 13);
    __m128i first = _mm_shuffle_epi8(high, _mm_and_si128(_mm_srli_epi16(one, 4), four));
    __m128i second = _mm_shuffle_epi8(low, _mm_and_si128(one, four));
    __m128i third = _mm_shuffle_epi8(next, _mm_and_si128(_mm_srli_epi16(bytes, 4), four));
    __m128i cases = _mm_and_si128(_mm_and_si128(first, second), third);
    __m128i goes_on = _mm_or_si128(_mm_subs_epu8(two, _mm_set1_epi8(0x60)), _mm_subs_epu8(three, _mm_set1_epi8(0x70)));
    return _mm_xor_si128(_mm_and_si128(goes_on, _mm_set1_epi8(-128)), cases);
}

static size_t check_utf8(const Task *task) {
    __m128i bad = _mm_setzero_si128(), before = bad;
    for (size_t at = 0; at + 4 * LANES <= task->length; at += 4 * LANES) {
        __m128i any = _mm_setzero_si128();
        for (int lane = 0; lane < 4; lane++) any = _mm_or_si128(any, lanes(task->text + at + LANES * lane));
        if (!_mm_movemask_epi8(_mm_or_si128(any, before))) {
            before = lanes(task->text + at + 3 * LANES);
            continue;
        }
        for (int lane = 0; lane < 4; lane++) {
            __m128i bytes = lanes(task->text + at + LANES * lane);
            bad = _mm_or_si128(bad, bad_lanes(bytes, before));
            before = bytes;
        }
    }
    return (size_t)_mm_testz_si128(bad, bad);
}

static size_t find_line_feeds(const Task *task) {
    size_t count = 0;
    const char *end = task->text + task->length;
    for (const char *at = task->text; (at = memchr(at, '\n', (size_t)(end - at))); at++) count++;
    return count;
}

static size_t find_markup(const Task *task) {
    const __m128i first = _mm_setr_epi8('`', '!', 0, 0, 0, 0, '&', 0, 0, 0, '\n', '[', '<', ']', '~', '_');
    const __m128i second = _mm_setr_epi8('`', '!', 0, 0, 0, 0, '&', 0, 0, 0, '*', '[', '\\', ']', '~', '_');
    size_t places = 0;
    for (size_t at = 0; at + 4 * LANES <= task->length; at += 4 * LANES) {
        unsigned long marks = 0;
        for (int lane = 0; lane < 4; lane++) {
            __m128i bytes = lanes(task->text + at + LANES * lane);
            marks |= (unsigned long)(found(first, bytes) | found(second, bytes)) << (LANES * lane);
        }
        for (; marks; marks &= marks - 1) places += at + (size_t)__builtin_ctzl(marks);
    }
    return places;
}

static char *push_escaped(char *to, char byte) {
    const char *reference = byte == '&' ? "&amp;" : byte == '<' ? "&lt;" : byte == '>' ? "&gt;" : "&quot;";
    size_t length = strlen(reference);
    memcpy(to, reference, length);
    return to + length;
}

static size_t escape(const Task *task) {
    const __m128i table = _mm_setr_epi8(1, 0, '"', 0, 0, 0, '&', 0, 0, 0, 0, 0, '<', 0, '>', 0);
    char *to = task->room;
    size_t at = 0;
    while (at + LANES <= task->length) {
        __m128i bytes = lanes(task->text + at);
        int marks = found(table, bytes);
        size_t plain = marks ? (size_t)__builtin_ctz((unsigned)marks) : LANES;
        _mm_storeu_si128((__m128i *)to, bytes);
        to += plain;
        at += plain;
        if (marks) to = push_escaped(to, task->text[at++]);
    }
    return (size_t)(to - task->room);
}

static size_t touch_pages(const Task *task) {
    char *pages = mmap(NULL, task->html, PROT_READ | PROT_WRITE, MAP_PRIVATE | MAP_ANONYMOUS, -1, 0);
    if (pages == MAP_FAILED) return 0;
    for (size_t at = 0; at < task->html; at += PAGE) pages[at] = 1;
    munmap(pages, task->html);
    return task->html;
}

static void tell(size_t (*step)(const Task *), const Task *task) {
    static volatile size_t kept;
    double least = 1e9;
    for (int turn = 0; turn < TURNS; turn++) {
        double begun = seconds();
        kept += step(task);
        double taken = seconds() - begun;
        if (taken < least) least = taken;
    }
    printf(" %.0f", least * 1e6);
}

int main(int count, char **words) {
    size_t (*const steps[])(const Task *) = {copy, check_utf8, find_line_feeds, find_markup, escape, touch_pages};
    FILE *file = count == 3 ? fopen(words[1], "rb") : NULL;
    if (!file || fseek(file, 0, SEEK_END)) return 2;
    size_t length = (size_t)ftell(file);
    char *text = malloc(length + LANES), *room = malloc(LONGEST * length + LANES);
    rewind(file);
    if (!text || !room || fread(text, 1, length, file) != length) return 2;
    memset(room, 1, LONGEST * length + LANES);
    Task task = {text, length, room, (size_t)atol(words[2])};
    if (!check_utf8(&task)) return 1;
    for (size_t step = 0; step < sizeof steps / sizeof *steps; step++) tell(steps[step], &task);
    printf("\n");
    return 0;
}

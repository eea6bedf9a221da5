/* cmk.h: converts CommonMark 0.31.2 to HTML, to a listing of its tree, or to CommonMark source.
 *
 * Link with -lcmk; `pkg-config --cflags --libs cmk` prints the flags. docs/embedding.md covers linking, limits and the stack.
 *
 * For all calls:
 * - A text is a pointer and a length in bytes. It needn't end in NUL, and a NUL in it is a character of the text. It is only read.
 * - No pointer may be null but that of a text or a room of 0 bytes: a null text is the empty text. What an output holds before a call
 *   doesn't matter. (The tests try both. The proofs are about pointers that aren't null, and outputs that are set.)
 * - Input and output may not overlap.
 * - The library has no state. Any number of threads may call it at once, each with its own output or room. They may share a text and
 *   options while nobody writes to them.
 * - No call may be made from a signal handler, or in the child of a fork of a process with threads, because calls use malloc.
 * - Each call returns, and is safe for any bytes. As measured, it takes less than 200 kB of stack at the default limits, and less than
 *   1 MB at the highest.
 */
#ifndef CMK_H
#define CMK_H

#include <stdbool.h>
#include <stddef.h>
#include <stdint.h>
#include <stdlib.h>

#define CMK_VERSION "0.1.0"

#ifdef __cplusplus
extern "C" {
#endif

/* What a call returns: CMK_DONE, or why there is no output. */
enum {
    CMK_DONE = 0,
    CMK_NOT_UTF8 = 1,         /* place: how many bytes come before the first that isn't part of a character */
    CMK_TOO_LONG = 2,         /* place: the limit of bytes */
    CMK_BLOCKS_TOO_DEEP = 3,  /* place: the line, counted from 1, enclosed by more quotes and list items than the limit */
    CMK_INLINES_TOO_DEEP = 4, /* place: the leaf, counted from 1, whose inlines nest deeper than the limit */
    CMK_NO_MEMORY = 5,        /* out of memory: a refused allocation left no result */
    CMK_CANNOT_SPELL = 8,     /* cmk_rewrite: the tree can't be written as source; place: a CMK_REASON_ */
    CMK_OUT_OF_RANGE = 11,    /* an option, or the number of a fault, is out of range */
    CMK_NO_ROOM = 12          /* cmk_html_into, cmk_fault_text: the room is too small; `length` is set */
};

/* Why a tree can't be written as source: the places of CMK_CANNOT_SPELL. docs/cmk.md describes the reasons. */
enum {
    CMK_REASON_DEFINITION = 1,             /* a definition */
    CMK_REASON_NUL = 2,                    /* U+0000 */
    CMK_REASON_SHAPE = 3,                  /* a malformed node */
    CMK_REASON_TEXT = 4,                   /* an empty or divided text */
    CMK_REASON_EMPHASIS_NESTED = 5,        /* emphasis in emphasis */
    CMK_REASON_EMPHASIS_TOUCHING = 6,      /* emphasis beside emphasis */
    CMK_REASON_EMPHASIS_EDGE = 7,          /* an edge of emphasis */
    CMK_REASON_CODE_SPAN = 8,              /* a code span */
    CMK_REASON_RAW_HTML = 9,               /* raw HTML */
    CMK_REASON_LINK_IN_LINK = 10,          /* a link in a link */
    CMK_REASON_LINE_BREAK = 11,            /* a line break */
    CMK_REASON_CODE_TEXT = 12,             /* the text of a code block */
    CMK_REASON_HTML_BLOCK = 13,            /* an HTML block */
    CMK_REASON_ADJACENT_LISTS = 14,        /* two lists of one type side by side */
    CMK_REASON_ITEM_BEGINS_WITH_LIST = 15, /* an item that begins with a list */
    CMK_REASON_LOOSENESS = 16,             /* a loose or tight list */
    CMK_REASON_STRIKE_OFF = 17,            /* strikethrough while it is off */
    CMK_REASON_ADDRESS_OFF = 18,           /* an address that isn't followed */
    CMK_REASON_INFO_OFF = 19               /* an info of several lines while raw HTML is off */
};

/* The options of a call. All zero is the default: the standard limits and rules. */
typedef struct cmk_options {
    size_t bytes;   /* the most bytes of a text, 1 to 2^30; 0 means 2^28 */
    size_t blocks;  /* how many quotes and list items may enclose a line, 1 to 500; 0 means 100 */
    size_t inlines; /* how deep emphasis, links and images may nest, 1 to 500; 0 means 100 */
    bool older;     /* the older rules, as with `cmk --older` */
    bool strike;    /* text between two tildes is struck through, as with `cmk --strike` */
    bool no_html;   /* raw HTML is text, as with `cmk --no-html` */
    bool web_links; /* links that don't lead to the web are text, as with `cmk --web-links` */
} cmk_options;

#define CMK_OPTIONS { 0, 0, 0, false, false, false, false }

/* The same for untrusted text, as with `cmk --safe`: no_html and web_links are set. */
#define CMK_SAFE_OPTIONS { 0, 0, 0, false, false, true, true }

/* What a call returns. Free it with cmk_free before the next call. Set it to CMK_OUTPUT if cmk_free may come before the first. */
typedef struct cmk_output {
    const char *bytes; /* the output in UTF-8 and a NUL, in a block of malloc; not to be read unless the call returned CMK_DONE */
    size_t size;       /* the length with the NUL; 0 unless the call returned CMK_DONE */
    size_t length;     /* the length of the output in bytes, without the NUL */
    size_t place;      /* where the fault is, as described with the constants above; otherwise 0 */
} cmk_output;

#define CMK_OUTPUT { "", 0, 0, 0 }

/* What a call reports that writes into the caller's room. It needn't be set before the call. */
typedef struct cmk_filled {
    size_t length; /* the length of the output without the NUL, after CMK_DONE and CMK_NO_ROOM; otherwise 0 */
    size_t place;  /* where the fault is; otherwise 0 */
} cmk_filled;

/* Returns the HTML of the text, as `cmk render` writes it, in an output that the caller frees with cmk_free.
 * The result is CMK_DONE, or the text's one fault with its place, CMK_NO_MEMORY or CMK_OUT_OF_RANGE, and then there are no bytes.
 * With CMK_OPTIONS, raw HTML is passed through and `javascript:` links stay. For untrusted text, start with
 * CMK_SAFE_OPTIONS. */
uint32_t cmk_html(const char *text, size_t length, const cmk_options *options, cmk_output *output);

/* Returns the listing of the text's tree and of the owners of its lines, as `cmk tree` writes it. Otherwise like cmk_html. */
uint32_t cmk_tree(const char *text, size_t length, const cmk_options *options, cmk_output *output);

/* Returns the text's tree as JSON, as `cmk tree --json` writes it, but without the line feed at its end. The JSON is mdast; docs/cmk.md
 * lists its nodes. Otherwise like cmk_html. */
uint32_t cmk_json(const char *text, size_t length, const cmk_options *options, cmk_output *output);

/* Returns CommonMark source of the text's tree without its link reference definitions, as `cmk rewrite` writes it. Otherwise like
 * cmk_html; if the text has no fault and its tree can't be written as source, CMK_CANNOT_SPELL with a CMK_REASON_ as place. */
uint32_t cmk_rewrite(const char *text, size_t length, const cmk_options *options, cmk_output *output);

/* Writes the HTML of the text and a NUL to the start of the caller's room of `size` bytes.
 * The result is as for cmk_html, or CMK_NO_ROOM: then filled->length is the length of the HTML, and one byte more is needed.
 * Unless the result is CMK_DONE, the room is unchanged; if it is, the bytes after the NUL are. */
uint32_t cmk_html_into(const char *text, size_t length, const cmk_options *options, char *room, size_t size, cmk_filled *filled);

/* Writes the line that the program prints for a result, with its line feed and a NUL, to the start of the caller's room. `number` and
 * `place` are what a call returned. CMK_LINE_ROOM bytes are enough for every line. No memory is allocated.
 * The result is CMK_DONE, CMK_NO_ROOM with the length of the line, or CMK_OUT_OF_RANGE if there is no fault of this number and place. */
uint32_t cmk_fault_text(uint32_t number, size_t place, char *room, size_t size, cmk_filled *filled);

#define CMK_LINE_ROOM 127

/* Returns the version of the linked library: 65536 times the first number of CMK_VERSION, plus 256 times the second, plus the third. */
uint32_t cmk_version(void);

/* Frees the bytes of an output, which has none afterwards. It is C, and not covered by the proofs. The libraries export it too. */
static inline void cmk_free(cmk_output *output) {
    if (output->size > 0) {
#ifdef __cplusplus
        free(const_cast<char *>(output->bytes));
#else
        free((void *)(uintptr_t)output->bytes); /* no warning that const is cast away */
#endif
    }
    output->bytes = "";
    output->size = 0;
    output->length = 0;
}

#ifdef __cplusplus
}
#endif

#endif

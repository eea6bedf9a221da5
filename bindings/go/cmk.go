// Package cmk converts CommonMark 0.31.2 to HTML, to its tree, or to plain source, by the proved library libcmk.
//
// Any number of goroutines may call at once. By default raw HTML in a text is written unchanged, and javascript: links stay. For
// untrusted text there is [Options.Safe].
package cmk

/*
#cgo pkg-config: cmk
#include <cmk.h>

typedef struct { cmk_output output; uint32_t number; } cmk_answer;

// A call with options and output by value, since what Go passes by pointer moves to its heap.
static cmk_answer cmk_called(int job, const char *text, size_t length, cmk_options options) {
	static uint32_t (*const calls[])(const char *, size_t, const cmk_options *, cmk_output *) = {cmk_html, cmk_tree, cmk_json, cmk_rewrite};
	cmk_answer answer = {CMK_OUTPUT, 0};
	answer.number = calls[job](text, length, &options, &answer.output);
	return answer;
}
*/
import "C"

import (
	"fmt"
	"unsafe"
)

// Options are what is asked of a call. The zero value has the standard limits and rules.
type Options struct {
	Bytes    int  // the greatest number of bytes of a text, 1 to 2^30; 0 means 2^28
	Blocks   int  // how many quotes and list items may enclose a line, 1 to 500; 0 means 100
	Inlines  int  // how deep emphasis, links and images may nest, 1 to 500; 0 means 100
	Older    bool // the older rules, as with cmk --older
	Strike   bool // text between two tildes is struck through
	NoHTML   bool // raw HTML is text
	WebLinks bool // links that don't lead to the web are text
	Safe     bool // for untrusted text: NoHTML and WebLinks
}

// A Fault is the number of an [Error]. As the target of [errors.Is] it matches each error with this number.
type Fault uint32

// The faults, by the numbers of cmk.h. A newer library may return others.
const (
	ErrNotUTF8        Fault = 1  // the bytes aren't UTF-8; the place is the first byte that isn't part of a character
	ErrTooLong        Fault = 2  // the text is too long; the place is the limit of bytes
	ErrBlocksTooDeep  Fault = 3  // more quotes and list items than the limit enclose a line; the place is the line, from 1
	ErrInlinesTooDeep Fault = 4  // the inlines of a leaf nest deeper than the limit; the place is the leaf, from 1
	ErrNoMemory       Fault = 5  // a refused allocation left no result
	ErrCannotSpell    Fault = 8  // the tree can't be written as source; the place is a reason
	ErrOutOfRange     Fault = 11 // an option is out of its range
	ErrNoRoom         Fault = 12 // the caller's room is too small, which no call of this package returns
)

// Why a tree can't be written as source: the places of [ErrCannotSpell]. docs/cmk.md describes the reasons.
const (
	ReasonDefinition         = 1  // a definition
	ReasonNUL                = 2  // U+0000
	ReasonShape              = 3  // a malformed node
	ReasonText               = 4  // an empty or divided text
	ReasonEmphasisNested     = 5  // emphasis in emphasis
	ReasonEmphasisTouching   = 6  // emphasis beside emphasis
	ReasonEmphasisEdge       = 7  // an edge of emphasis
	ReasonCodeSpan           = 8  // a code span
	ReasonRawHTML            = 9  // raw HTML
	ReasonLinkInLink         = 10 // a link in a link
	ReasonLineBreak          = 11 // a line break
	ReasonCodeText           = 12 // the text of a code block
	ReasonHTMLBlock          = 13 // an HTML block
	ReasonAdjacentLists      = 14 // two lists of one type side by side
	ReasonItemBeginsWithList = 15 // an item that begins with a list
	ReasonLooseness          = 16 // a loose or tight list
	ReasonStrikeOff          = 17 // strikethrough while it is off
	ReasonAddressOff         = 18 // an address that isn't followed
	ReasonInfoOff            = 19 // an info of several lines while raw HTML is off
)

// Error returns the line that the program cmk prints for this fault at place 0. An [Error] has its place.
func (f Fault) Error() string { return (&Error{Number: f}).Error() }

// An Error says why there is no output.
type Error struct {
	Number Fault
	Place  int // the byte, the line or the leaf of the fault, or the reason why a tree can't be spelled
}

// Error returns the line that the program cmk prints.
func (e *Error) Error() string {
	var room [C.CMK_LINE_ROOM]C.char
	var filled C.cmk_filled
	if C.cmk_fault_text(C.uint32_t(e.Number), C.size_t(e.Place), &room[0], C.CMK_LINE_ROOM, &filled) != C.CMK_DONE {
		return fmt.Sprintf("cmk: answer %d at %d", uint32(e.Number), e.Place)
	}
	return C.GoStringN(&room[0], C.int(filled.length)-1)
}

// Unwrap returns the number, so that errors.Is(err, cmk.ErrNotUTF8) finds it.
func (e *Error) Unwrap() error { return e.Number }

// HTML returns the HTML of a text, as cmk render writes it. The error, if there is one, is an [*Error].
func HTML(text []byte, options Options) ([]byte, error) { return called(0, text, options) }

// Tree returns the listing of the tree of a text and of the owners of its lines, as cmk tree writes it.
func Tree(text []byte, options Options) ([]byte, error) { return called(1, text, options) }

// JSON returns the tree of a text in JSON, as cmk tree --json writes it, without its last line feed.
func JSON(text []byte, options Options) ([]byte, error) { return called(2, text, options) }

// Rewrite returns plain source of the tree of a text without its definitions, as cmk rewrite writes it. A tree that can't be spelled is
// [ErrCannotSpell].
func Rewrite(text []byte, options Options) ([]byte, error) { return called(3, text, options) }

// called returns a copy of the output of a call, and frees that.
func called(job C.int, text []byte, options Options) ([]byte, error) {
	var first *C.char
	if len(text) > 0 {
		first = (*C.char)(unsafe.Pointer(&text[0]))
	}
	answer := C.cmk_called(job, first, C.size_t(len(text)), C.cmk_options{
		bytes:     C.size_t(options.Bytes),
		blocks:    C.size_t(options.Blocks),
		inlines:   C.size_t(options.Inlines),
		older:     C.bool(options.Older),
		strike:    C.bool(options.Strike),
		no_html:   C.bool(options.NoHTML || options.Safe),
		web_links: C.bool(options.WebLinks || options.Safe),
	})
	if answer.number != C.CMK_DONE {
		return nil, &Error{Fault(answer.number), int(answer.output.place)}
	}
	block := unsafe.Pointer(answer.output.bytes)
	defer C.free(block)
	output := unsafe.Slice((*byte)(block), answer.output.length)
	return append(make([]byte, 0, len(output)), output...), nil
}

// Version returns the version of the linked library, three numbers with points between them.
func Version() string {
	number := uint32(C.cmk_version())
	return fmt.Sprintf("%d.%d.%d", number>>16, number>>8&255, number&255)
}

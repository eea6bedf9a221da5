<?php

/**
 * CommonMark 0.31.2 to HTML, to its tree, or to plain source, by the proved library libcmk.
 *
 * Each call throws a CmkException if the text has an error, memory runs out, or a number is out of its range. By default raw HTML in a text is
 * written unchanged, and javascript: links stay. For untrusted text there is `safe`.
 *
 * The options of a call:
 * - bytes: the greatest number of bytes of the text, 1 to 2^30;
 * - blocks: how many quotes and list items may enclose a line, 1 to 500;
 * - inlines: how deep emphasis, links and images may nest, 1 to 500;
 * - older: the older rules, as with `cmk --older`;
 * - strike: text between two tildes is struck through;
 * - no_html: raw HTML is text;
 * - web_links: links that don't lead to the web are text;
 * - safe: for untrusted text, no_html and web_links.
 */

namespace Cmk;

/** Why there is no output. Its code is one of the constants, or another from a newer library; its message is the line that the program prints. */
class CmkException extends \RuntimeException
{
    /** @var int the place is the number of bytes before the first that isn't part of a character */
    public const NOT_UTF8 = 1;
    /** @var int the place is the limit of bytes */
    public const TOO_LONG = 2;
    /** @var int the place is the line, counted from 1, enclosed by more quotes and list items than the limit */
    public const BLOCKS_TOO_DEEP = 3;
    /** @var int the place is the leaf, counted from 1, whose inlines nest deeper than the limit */
    public const INLINES_TOO_DEEP = 4;
    /** @var int a refused allocation left no result */
    public const NO_MEMORY = 5;
    /** @var int the tree can't be written as source; the place is one of the reasons */
    public const CANNOT_SPELL = 8;
    /** @var int an option is out of its range */
    public const OUT_OF_RANGE = 11;
    /** @var int the caller's room is too small, which no function of this extension throws */
    public const NO_ROOM = 12;
    // The places of CANNOT_SPELL, which docs/cmk.md describes:
    /** @var int a definition */
    public const REASON_DEFINITION = 1;
    /** @var int U+0000 */
    public const REASON_NUL = 2;
    /** @var int a malformed node */
    public const REASON_SHAPE = 3;
    /** @var int an empty or divided text */
    public const REASON_TEXT = 4;
    /** @var int emphasis in emphasis */
    public const REASON_EMPHASIS_NESTED = 5;
    /** @var int emphasis beside emphasis */
    public const REASON_EMPHASIS_TOUCHING = 6;
    /** @var int an edge of emphasis */
    public const REASON_EMPHASIS_EDGE = 7;
    /** @var int a code span */
    public const REASON_CODE_SPAN = 8;
    /** @var int raw HTML */
    public const REASON_RAW_HTML = 9;
    /** @var int a link in a link */
    public const REASON_LINK_IN_LINK = 10;
    /** @var int a line break */
    public const REASON_LINE_BREAK = 11;
    /** @var int the text of a code block */
    public const REASON_CODE_TEXT = 12;
    /** @var int an HTML block */
    public const REASON_HTML_BLOCK = 13;
    /** @var int two lists of one type side by side */
    public const REASON_ADJACENT_LISTS = 14;
    /** @var int an item that begins with a list */
    public const REASON_ITEM_BEGINS_WITH_LIST = 15;
    /** @var int a loose or tight list */
    public const REASON_LOOSENESS = 16;
    /** @var int strikethrough while it is off */
    public const REASON_STRIKE_OFF = 17;
    /** @var int an address that isn't followed */
    public const REASON_ADDRESS_OFF = 18;
    /** @var int an info of several lines while raw HTML is off */
    public const REASON_INFO_OFF = 19;

    public readonly int $place;

    public function __construct(int $code, int $place) {}
}

/** Returns the HTML of a text, as `cmk render` writes it. */
function html(string $text, int $bytes = 1 << 28, int $blocks = 100, int $inlines = 100, bool $older = false, bool $strike = false, bool $no_html = false, bool $web_links = false, bool $safe = false): string {}

/** Returns the listing of the tree of a text and of the owners of its lines, as `cmk tree` writes it. */
function tree(string $text, int $bytes = 1 << 28, int $blocks = 100, int $inlines = 100, bool $older = false, bool $strike = false, bool $no_html = false, bool $web_links = false, bool $safe = false): string {}

/** Returns the tree of a text in JSON, as `cmk tree --json` writes it, without its last line feed. */
function json(string $text, int $bytes = 1 << 28, int $blocks = 100, int $inlines = 100, bool $older = false, bool $strike = false, bool $no_html = false, bool $web_links = false, bool $safe = false): string {}

/** Returns plain source of the tree of a text without its definitions, as `cmk rewrite` writes it. */
function rewrite(string $text, int $bytes = 1 << 28, int $blocks = 100, int $inlines = 100, bool $older = false, bool $strike = false, bool $no_html = false, bool $web_links = false, bool $safe = false): string {}

/** Returns the tree of a text as arrays: the values of json(), at every depth. */
function parse(string $text, int $bytes = 1 << 28, int $blocks = 100, int $inlines = 100, bool $older = false, bool $strike = false, bool $no_html = false, bool $web_links = false, bool $safe = false): array {}

/** Calls a function with a node and each node inside it, in the order of the text. The description of an image is passed over. */
function walk(array $tree, callable $visit): void {}

/** Returns the version of the library, three numbers with points between them. */
function version(): string {}

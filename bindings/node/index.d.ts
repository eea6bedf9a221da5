// CommonMark 0.31.2 to HTML, to its tree, or to plain source, by the proved library libcmk.
//
// By default raw HTML in a text is written unchanged, and javascript: links stay. For untrusted text there is the option `safe`.

/** The options of a call. */
export interface Options {
  /** The greatest number of bytes of the text in UTF-8, 1 to 2^30; 2^28 by default. */
  bytes?: number;
  /** How many quotes and list items may enclose a line, 1 to 500; 100 by default. */
  blocks?: number;
  /** How deep emphasis, links and images may nest, 1 to 500; 100 by default. */
  inlines?: number;
  /** The older rules, as with `cmk --older`. */
  older?: boolean;
  /** Text between two tildes is struck through. */
  strike?: boolean;
  /** Raw HTML is text. */
  noHtml?: boolean;
  /** Links that don't lead to the web are text. */
  webLinks?: boolean;
  /** For untrusted text: `noHtml` and `webLinks`. */
  safe?: boolean;
}

/** The numbers of errors. The comments say what the place of each is. */
export const Fault: {
  /** How many bytes come before the first that isn't part of a character. */
  readonly NOT_UTF8: 1;
  /** The limit of bytes. */
  readonly TOO_LONG: 2;
  /** The line, counted from 1, enclosed by more quotes and list items than the limit. */
  readonly BLOCKS_TOO_DEEP: 3;
  /** The leaf, counted from 1, whose inlines nest deeper than the limit. */
  readonly INLINES_TOO_DEEP: 4;
  /** A refused allocation left no result. */
  readonly NO_MEMORY: 5;
  /** The tree can't be written as source: a `Reason`. */
  readonly CANNOT_SPELL: 8;
  /** An option is out of its range. */
  readonly OUT_OF_RANGE: 11;
  /** The caller's room is too small, which no call of this package returns. */
  readonly NO_ROOM: 12;
};

/** Why a tree can't be written as source: the places of `Fault.CANNOT_SPELL`. docs/cmk.md describes the reasons. */
export const Reason: {
  /** A definition. */
  readonly DEFINITION: 1;
  /** U+0000. */
  readonly NUL: 2;
  /** A malformed node. */
  readonly SHAPE: 3;
  /** An empty or divided text. */
  readonly TEXT: 4;
  /** Emphasis in emphasis. */
  readonly EMPHASIS_NESTED: 5;
  /** Emphasis beside emphasis. */
  readonly EMPHASIS_TOUCHING: 6;
  /** An edge of emphasis. */
  readonly EMPHASIS_EDGE: 7;
  /** A code span. */
  readonly CODE_SPAN: 8;
  /** Raw HTML. */
  readonly RAW_HTML: 9;
  /** A link in a link. */
  readonly LINK_IN_LINK: 10;
  /** A line break. */
  readonly LINE_BREAK: 11;
  /** The text of a code block. */
  readonly CODE_TEXT: 12;
  /** An HTML block. */
  readonly HTML_BLOCK: 13;
  /** Two lists of one type side by side. */
  readonly ADJACENT_LISTS: 14;
  /** An item that begins with a list. */
  readonly ITEM_BEGINS_WITH_LIST: 15;
  /** A loose or tight list. */
  readonly LOOSENESS: 16;
  /** Strikethrough while it is off. */
  readonly STRIKE_OFF: 17;
  /** An address that isn't followed. */
  readonly ADDRESS_OFF: 18;
  /** An info of several lines while raw HTML is off. */
  readonly INFO_OFF: 19;
};

/** Why there is no output. Its message is the line that the program prints. */
export class CmkError extends Error {
  constructor(number: number, place: number);
  /** One of `Fault`, or another number from a newer library. */
  readonly number: number;
  /** The byte, the line or the leaf of the error, or the `Reason` why a tree can't be spelled. */
  readonly place: number;
  /** `CMK_` and the name in `Fault`, such as `CMK_NOT_UTF8`. */
  readonly code: string | undefined;
}

/** A lone surrogate in a string isn't UTF-8, and is refused at its first byte. */
export type Source = string | Uint8Array;

/**
 * Returns the HTML of a text, as `cmk render` writes it. Throws a `CmkError` if the text has an error, memory runs out, or a number is out of
 * its range, and an `Error` if the output is longer than a string may be.
 */
export function html(text: Source, options?: Options): string;
/** Returns the listing of the tree of a text and of the owners of its lines, as `cmk tree` writes it. Otherwise like `html`. */
export function tree(text: Source, options?: Options): string;
/** Returns the tree of a text in JSON, as `cmk tree --json` writes it, without its last line feed. Otherwise like `html`. */
export function json(text: Source, options?: Options): string;
/** Returns the tree of a text: the values of `json`, at every depth. Otherwise like `html`. */
export function parse(text: Source, options?: Options): Root;
/** Returns plain source of the tree of a text without its definitions, as `cmk rewrite` writes it. Otherwise like `html`. */
export function rewrite(text: Source, options?: Options): string;

// The same on one of Node's threads. They copy the text first.
export function htmlAsync(text: Source, options?: Options): Promise<string>;
export function treeAsync(text: Source, options?: Options): Promise<string>;
export function jsonAsync(text: Source, options?: Options): Promise<string>;
export function parseAsync(text: Source, options?: Options): Promise<Root>;
export function rewriteAsync(text: Source, options?: Options): Promise<string>;

/** Iterates over a node and each node inside it, in the order of the text. The description of an image is passed over. */
export function walk(tree: Node): Generator<Node, void, undefined>;

/** Returns the version of the library, three numbers with points between them. */
export function version(): string;

/** The first and the last line of a leaf, counted from 1. */
export interface Lines {
  lines: [number, number];
}

export interface Root {
  type: "root";
  /** `markers` has the lines that have only a marker, if there are any. */
  data: Lines & { markers?: number[] };
  children: Block[];
}

export interface Paragraph {
  type: "paragraph";
  data: Lines;
  children: Inline[];
}

export interface Heading {
  type: "heading";
  data: Lines;
  depth: 1 | 2 | 3 | 4 | 5 | 6;
  children: Inline[];
}

export interface Code {
  type: "code";
  /** `info` is the info string, unless `lang` and `meta` make it up. */
  data: Lines & { info?: string; finalNewline?: false };
  lang: string | null;
  meta: string | null;
  value: string;
}

export interface ThematicBreak {
  type: "thematicBreak";
  data: Lines;
}

export interface Definition {
  type: "definition";
  /** `label` is that of the source, unless it is the node's. */
  data: Lines & { label?: string };
  identifier: string;
  label: string;
  url: string;
  title: string | null;
}

export interface Blockquote {
  type: "blockquote";
  children: Block[];
}

export interface List {
  type: "list";
  data: { marker: "-" | "+" | "*" | "." | ")" };
  ordered: boolean;
  start: number | null;
  spread: boolean;
  children: ListItem[];
}

export interface ListItem {
  type: "listItem";
  spread: boolean;
  children: Block[];
}

/** An HTML block, or raw HTML among inlines, which has no `data`. */
export interface Html {
  type: "html";
  data?: Lines & { finalNewline?: false };
  value: string;
}

/** Text with the soft line breaks in it, a line feed for each. `data` is there if a character reference makes a line feed. */
export interface Text {
  type: "text";
  data?: { characterReference: true };
  value: string;
}

export interface Break {
  type: "break";
}

export interface Emphasis {
  type: "emphasis";
  children: Inline[];
}

export interface Strong {
  type: "strong";
  children: Inline[];
}

export interface Delete {
  type: "delete";
  children: Inline[];
}

export interface InlineCode {
  type: "inlineCode";
  value: string;
}

export interface Link {
  type: "link";
  url: string;
  title: string | null;
  children: Inline[];
}

export interface Image {
  type: "image";
  /** The description, unless it is empty or one text that isn't. */
  data?: { children: Inline[] };
  url: string;
  title: string | null;
  /** The text of the description; `null` only in the description of another image. */
  alt: string | null;
}

export type Block = Paragraph | Heading | Code | Html | ThematicBreak | Definition | Blockquote | List;
export type Inline = Text | Break | Emphasis | Strong | Delete | InlineCode | Html | Link | Image;
export type Node = Root | Block | ListItem | Inline;

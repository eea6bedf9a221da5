"use strict";

// CommonMark 0.31.2 to HTML, to its tree, or to plain source, by the proved library libcmk. index.d.ts describes each function.

const { types } = require("node:util");
const native = require("./build/Release/cmk.node");

const JOB = { html: 0, tree: 1, json: 2, rewrite: 3 };
const LONE_SURROGATE = /(\p{Surrogate})/u;

const Fault = Object.freeze({
  NOT_UTF8: 1,
  TOO_LONG: 2,
  BLOCKS_TOO_DEEP: 3,
  INLINES_TOO_DEEP: 4,
  NO_MEMORY: 5,
  CANNOT_SPELL: 8,
  OUT_OF_RANGE: 11,
  NO_ROOM: 12,
});

const Reason = Object.freeze({
  DEFINITION: 1,
  NUL: 2,
  SHAPE: 3,
  TEXT: 4,
  EMPHASIS_NESTED: 5,
  EMPHASIS_TOUCHING: 6,
  EMPHASIS_EDGE: 7,
  CODE_SPAN: 8,
  RAW_HTML: 9,
  LINK_IN_LINK: 10,
  LINE_BREAK: 11,
  CODE_TEXT: 12,
  HTML_BLOCK: 13,
  ADJACENT_LISTS: 14,
  ITEM_BEGINS_WITH_LIST: 15,
  LOOSENESS: 16,
  STRIKE_OFF: 17,
  ADDRESS_OFF: 18,
  INFO_OFF: 19,
});

class CmkError extends Error {
  constructor(number, place) {
    super(native.line(number, place));
    this.number = number;
    this.place = place;
  }

  // The word by which Node's own errors are told apart, too.
  get code() {
    const name = Object.keys(Fault).find((it) => Fault[it] === this.number);
    return name && `CMK_${name}`;
  }
}
Object.defineProperty(CmkError.prototype, "name", { value: "CmkError", configurable: true, writable: true });

/** Returns the bytes of a text, which nobody else writes until a call has ended. */
function encoded(text, isLater) {
  if (typeof text === "string") return LONE_SURROGATE.test(text) ? withSurrogates(text) : Buffer.from(text);
  if (!types.isUint8Array(text)) throw new TypeError("a text is a string or a Uint8Array");
  return isLater || types.isSharedArrayBuffer(text.buffer) ? new Uint8Array(text) : text;
}

/** Returns the bytes of a text with lone surrogates, three for each. They aren't UTF-8, so the library refuses the first. */
function withSurrogates(text) {
  const bytesOf = (unit) => Buffer.from([0xed, (unit >> 6 & 0x3f) | 0x80, (unit & 0x3f) | 0x80]);
  return Buffer.concat(text.split(LONE_SURROGATE).map((it, at) => (at % 2 ? bytesOf(it.charCodeAt(0)) : Buffer.from(it))));
}

/** Returns the options as the addon takes them. The library takes 0 for the default, and the addon 32 bits. */
function asked(options = {}) {
  const { bytes = 2 ** 28, blocks = 100, inlines = 100, older, strike, noHtml, webLinks, safe, ...others } = options;
  for (const name in others) {
    throw new TypeError(`cmk has no option ${name}; its options are bytes, blocks, inlines, older, strike, noHtml, webLinks, safe`);
  }
  const isIn = (number, most) => Number.isInteger(number) && number >= 1 && number <= most;
  if (!isIn(bytes, 2 ** 30) || !isIn(blocks, 500) || !isIn(inlines, 500)) throw new CmkError(Fault.OUT_OF_RANGE, 0);
  const flags = [older, strike, noHtml || safe, webLinks || safe].reduce((sum, it, at) => sum | (it ? 1 << at : 0), 0);
  return [bytes, blocks, inlines, flags];
}

function outputOf(answer) {
  if (typeof answer !== "string") throw new CmkError(...answer);
  return answer;
}

function call(job, text, options) {
  return outputOf(native.call(job, encoded(text, false), ...asked(options)));
}

async function start(job, text, options) {
  return outputOf(await native.start(job, encoded(text, true), ...asked(options)));
}

const html = (text, options) => call(JOB.html, text, options);
const tree = (text, options) => call(JOB.tree, text, options);
const json = (text, options) => call(JOB.json, text, options);
const rewrite = (text, options) => call(JOB.rewrite, text, options);
const parse = (text, options) => JSON.parse(json(text, options));
const htmlAsync = (text, options) => start(JOB.html, text, options);
const treeAsync = (text, options) => start(JOB.tree, text, options);
const jsonAsync = (text, options) => start(JOB.json, text, options);
const rewriteAsync = (text, options) => start(JOB.rewrite, text, options);
const parseAsync = async (text, options) => JSON.parse(await jsonAsync(text, options));

function* walk(tree) {
  const left = [tree];
  while (left.length > 0) {
    const node = left.pop();
    yield node;
    for (let at = (node.children ?? []).length; at > 0; at--) left.push(node.children[at - 1]);
  }
}

function version() {
  const number = native.version();
  return `${number >> 16}.${(number >> 8) & 255}.${number & 255}`;
}

module.exports = {
  CmkError,
  Fault,
  Reason,
  html,
  htmlAsync,
  json,
  jsonAsync,
  parse,
  parseAsync,
  rewrite,
  rewriteAsync,
  tree,
  treeAsync,
  version,
  walk,
};

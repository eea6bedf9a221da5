// Answers the cases of .ci/bindings.py by bindings/node, each now and with a promise: the two have to give the same. A text that is UTF-8,
// or has lone surrogates instead, is given as a string too.
"use strict";

const assert = require("node:assert");
const fs = require("node:fs");
const cmk = require("cmk");

const calls = { ...cmk, parse: (...given) => JSON.stringify(cmk.parse(...given)), threads: cmk.html };
const later = { ...cmk, parseAsync: async (...given) => JSON.stringify(await cmk.parseAsync(...given)), threadsAsync: threads };

/** Returns the HTML on which 800 promises agree. */
async function threads(text) {
  const made = await Promise.all(Array.from({ length: 800 }, () => cmk.htmlAsync(text)));
  return made.every((it) => it === made[0]) ? made[0] : "they differ";
}

/** Returns the string of a text, or undefined if there is none, or it has U+FFFD. Node reads what isn't UTF-8 as that, surrogates too. */
function stringOf(text) {
  const surrogate = /\xed([\xa0-\xbf][\x80-\xbf])/;
  const pieces = text.toString("latin1").split(surrogate).map((it, at) => {
    const bytes = Buffer.from(it, "latin1");
    return at % 2 ? String.fromCharCode(0xd000 | (bytes[0] & 0x3f) << 6 | (bytes[1] & 0x3f)) : bytes.toString();
  });
  const string = pieces.join("");
  return string.includes("\ufffd") || Buffer.byteLength(string) !== text.length ? undefined : string;
}

async function answered(call, text, options) {
  try {
    return { output: await call(text, options) };
  } catch (error) {
    if (!(error instanceof cmk.CmkError)) throw error;
    return { number: error.number, place: error.place, line: error.message };
  }
}

async function main() {
  for (const it of fs.readFileSync(0, "utf8").split("\n").slice(0, -1)) {
    const { call, text, options: { no_html: noHtml, web_links: webLinks, ...others } } = JSON.parse(it);
    const options = { ...others, noHtml, webLinks }, bytes = Buffer.from(text, "base64"), string = stringOf(bytes);
    const answer = await answered(calls[call], bytes, options);
    assert.deepEqual(await answered(later[`${call}Async`], bytes, options), answer);
    if (string !== undefined) assert.deepEqual(await answered(calls[call], string, options), answer);
    console.log(JSON.stringify(answer));
  }
}

main();

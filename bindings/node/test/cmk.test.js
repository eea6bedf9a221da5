"use strict";

const assert = require("node:assert");
const fs = require("node:fs");
const test = require("node:test");
const { Worker } = require("node:worker_threads");
const cmk = require("..");

test("outputs", async () => {
  const cases = [
    ["html", "", {}, ""],
    ["html", Buffer.alloc(0), {}, ""],
    ["html", "a\0b", {}, "<p>a\ufffdb</p>\n"],
    ["html", "a & *b* ~~c~~", { strike: true, safe: undefined }, "<p>a &amp; <em>b</em> <del>c</del></p>\n"],
    ["html", Buffer.from("\u00e4\ud83d\ude00"), {}, "<p>\u00e4\ud83d\ude00</p>\n"],
    ["html", new Uint8Array(new SharedArrayBuffer(1)).fill(97), {}, "<p>a</p>\n"],
    ["html", "<b>a</b> [b](javascript:c)", { safe: true }, "<p>&lt;b&gt;a&lt;/b&gt; [b](javascript:c)</p>\n"],
    ["html", "<b>a</b> [b](javascript:c)", { webLinks: true }, "<p><b>a</b> [b](javascript:c)</p>\n"],
    ["html", "<b>", { noHtml: true }, "<p>&lt;b&gt;</p>\n"],
    ["html", "a\n<source>", { older: true }, "<p>a</p>\n<source>\n"],
    ["tree", "# a", {}, 'heading 1\n  text "a"\nowner 1 leaf 1\n'],
    ["json", "---", {}, '{"type":"root","data":{"lines":[1,1]},"children":[{"type":"thematicBreak","data":{"lines":[1,1]}}]}'],
    ["rewrite", "a\n===\n", {}, "# a\n"],
  ];
  for (const [call, text, options, output] of cases) {
    assert.equal(cmk[call](text, options), output);
    assert.equal(await cmk[`${call}Async`](text, options), output);
  }
});

test("errors", async () => {
  const cases = [
    ["html", Buffer.from([97, 98, 255]), {}, "NOT_UTF8", 2, "cmk: F1 not UTF-8 at byte 2"],
    ["html", "\u00e4\ud83d\ude00\udc00b", {}, "NOT_UTF8", 6, "cmk: F1 not UTF-8 at byte 6"],
    ["html", "ab\ud800", { bytes: 1 }, "TOO_LONG", 1, "cmk: F2 input too long at byte 1"],
    ["html", "> > a", { blocks: 1 }, "BLOCKS_TOO_DEEP", 1, "cmk: F3 blocks too deep on line 1"],
    ["tree", "***a***", { inlines: 1 }, "INLINES_TOO_DEEP", 1, "cmk: F4 inlines too deep in leaf 1"],
    ["rewrite", "***a***", {}, "CANNOT_SPELL", cmk.Reason.EMPHASIS_NESTED, "cmk: F8 cannot be spelled: emphasis in emphasis"],
    ["json", "a", { bytes: 0 }, "OUT_OF_RANGE", 0, "cmk: a number is out of its range"],
    ["html", "a", { blocks: 2 ** 32 + 1 }, "OUT_OF_RANGE", 0, "cmk: a number is out of its range"],
    ["html", "a", { inlines: 1.5 }, "OUT_OF_RANGE", 0, "cmk: a number is out of its range"],
  ];
  for (const [call, text, options, name, place, message] of cases) {
    const wanted = { name: "CmkError", code: `CMK_${name}`, number: cmk.Fault[name], place, message };
    assert.throws(() => cmk[call](text, options), wanted);
    await assert.rejects(cmk[`${call}Async`](text, options), wanted);
  }
  assert.ok(new cmk.CmkError(1, 0) instanceof Error);
  assert.deepEqual([new cmk.CmkError(99, 0)].map(({ code, message }) => [code, message]), [[undefined, "cmk: answer 99 at 0"]]);
});

test("arguments", async () => {
  for (const text of [1, null, undefined, ["a"], new Uint16Array(1)]) {
    assert.throws(() => cmk.html(text), TypeError);
    await assert.rejects(cmk.htmlAsync(text), TypeError);
  }
  assert.throws(() => cmk.parse("a", { saef: true }), /^TypeError: cmk has no option saef; its options are bytes, blocks,/);
  assert.match(cmk.version(), /^\d+\.\d+\.\d+$/);
});

test("a text that changes after a call has started", async () => {
  const text = Buffer.from("a *b*\n\n".repeat(500_000));
  const started = cmk.htmlAsync(text);
  text.fill("c");
  assert.equal(await started, "<p>a <em>b</em></p>\n".repeat(500_000));
});

test("trees", async () => {
  const found = [...cmk.walk(cmk.parse("[a](/b) *![c](/d)*"))].filter((it) => it.type === "link" || it.type === "image");
  assert.deepEqual(found.map((it) => it.url), ["/b", "/d"]);
  const deep = "- ".repeat(500) + "*".repeat(1000) + "a" + "*".repeat(1000);
  const root = await cmk.parseAsync(deep, { blocks: 500, inlines: 500 });
  assert.equal([...cmk.walk(root)].length, 1503);
  const images = await cmk.parseAsync("- ".repeat(500) + "![".repeat(500) + "a" + "](b)".repeat(500), { blocks: 500, inlines: 500 });
  assert.equal([...cmk.walk(images)].length, 1003);
});

test("types", () => {
  const types = fs.readFileSync(require.resolve("../index.d.ts"), "utf8");
  const named = (pattern) => [...types.matchAll(pattern)].map((it) => it[1]);
  assert.deepEqual(named(/^export (?:function|class|const) (\w+)/gm).sort(), Object.keys(cmk).sort());
  const numbers = [...Object.entries(cmk.Fault), ...Object.entries(cmk.Reason)].map(([name, number]) => `${name}: ${number}`);
  assert.deepEqual(named(/^  readonly ([A-Z_\d]+: \d+);/gm), numbers);
  assert.throws(() => cmk.html("a", { x: 1 }), { message: `cmk has no option x; its options are ${named(/^  (\w+)\?: (?:number|boolean);/gm).join(", ")}` });
});

test("threads", async () => {
  const made = await Promise.all(Array.from({ length: 500 }, (_, n) => cmk.htmlAsync("a *b*\n\n".repeat(n))));
  assert.deepEqual(made, made.map((_, n) => "<p>a <em>b</em></p>\n".repeat(n)));
  const code = `require("node:worker_threads").parentPort.postMessage(require(${JSON.stringify(require.resolve(".."))}).html("a"))`;
  const workers = Array.from({ length: 3 }, () => new Worker(code, { eval: true }));
  const said = workers.map((it) => new Promise((resolve, reject) => it.on("message", resolve).on("error", reject)));
  assert.deepEqual(await Promise.all(said), Array(3).fill("<p>a</p>\n"));
});

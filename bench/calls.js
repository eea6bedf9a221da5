// Measures bindings/node next to markdown-it, for bench/calls.
"use strict";

const fs = require("node:fs");
const cmk = require("cmk");
const MarkdownIt = require("markdown-it");

const [turns, times] = process.argv.slice(2, 4).map(Number);
const text = fs.readFileSync(process.argv[4], "utf8");
const other = new MarkdownIt("commonmark");
const calls = { cmk: () => cmk.html(text), "markdown-it": () => other.render(text) };
const least = {};

function processorTime() {
  const { user, system } = process.cpuUsage();
  return (user + system) / 1e6;
}

for (let turn = 0; turn < turns; turn++) {
  for (const [name, call] of Object.entries(calls)) {
    const began = processorTime();
    for (let n = 0; n < times; n++) call();
    least[name] = Math.min(least[name] ?? Infinity, processorTime() - began);
  }
}
for (const [name, took] of Object.entries(least)) console.log(name, took / times);

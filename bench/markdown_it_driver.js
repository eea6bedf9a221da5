// markdown-it as a filter from standard input to standard output, with nothing beyond CommonMark.
const fs = require("fs");
const MarkdownIt = require("markdown-it");

process.stdout.write(new MarkdownIt("commonmark").render(fs.readFileSync(0, "utf8")));

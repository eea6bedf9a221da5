// The page: what is typed goes to the program that serves it, and what that answers is shown.

import { Editor } from "./editor.js";
import { draw, read } from "./listing.js";
import { Rendered } from "./located.js";

const find = (selector) => document.querySelector(selector);
const editor = new Editor(find("#text"), find("#lines"), find("#editor"));
const options = find("#options");
const tabs = [...document.querySelectorAll('[role="tab"]')];
const panels = Object.fromEntries([...document.querySelectorAll('[role="tabpanel"]')].map((it) => [it.id, it]));
// The paths of the nodes of the tree that are folded.
const folded = new Set();
// The last result, with its listing read, and whether it is of the present text; the leaf that is marked; the panel that is shown; whether a
// conversion runs, and whether another has to follow.
let result = null, isCurrent = false, marked = 0, shown = "page", rendered = null, isBusy = false, isWaiting = false;

// ---- the options

function asked() {
  const given = {};
  for (const { name, type, checked, valueAsNumber } of options.elements) {
    if (type === "checkbox") given[name] = checked;
    else if (type === "number" && !Number.isNaN(valueAsNumber)) given[name] = valueAsNumber;
  }
  return given;
}

// --safe turns two of the others on. Meanwhile `defaultChecked` keeps how they were.
function showImplied() {
  const isSafe = options.elements.safe.checked;
  for (const name of ["no_html", "web_links"]) {
    const implied = options.elements[name];
    if (!implied.disabled) implied.defaultChecked = implied.checked;
    implied.disabled = isSafe;
    implied.checked = isSafe || implied.defaultChecked;
  }
}

// ---- the conversion

async function answer() {
  const body = JSON.stringify({ text: editor.text, options: asked() });
  try {
    const came = await fetch("convert", { method: "POST", headers: { "Content-Type": "application/json" }, body });
    return came.ok ? await came.json() : { error: await came.text() };
  } catch {
    return { error: "The program that serves this page doesn’t answer." };
  }
}

// Converts the text, and again if it has changed in the meantime.
async function convert() {
  isWaiting = isBusy;
  if (isBusy) return;
  isBusy = true;
  find("#result").ariaBusy = "true";
  do {
    isWaiting = false;
    const told = await answer();
    if (!isWaiting) show(told);
  } while (isWaiting);
  isBusy = false;
  find("#result").ariaBusy = "false";
}

function show(told) {
  const message = find("#error");
  isCurrent = !told.error;
  message.hidden = isCurrent;
  document.body.classList.toggle("stale", !isCurrent);
  editor.markError(isCurrent ? null : told);
  if (!isCurrent) {
    message.firstElementChild.textContent = told.error;
    message.lastElementChild.hidden = !editor.wrong;
    choose(0, {});
    return;
  }
  result = { ...told, ...read(told.listing) };
  const length = new TextEncoder().encode(editor.text).length.toLocaleString("en");
  find("#time span").textContent = `${length} bytes in `;
  find("#time b").textContent = `${(told.microseconds / 1000).toFixed(2)} ms`;
  drawPanel();
  followCursor();
}

// ---- the panels

const drawers = {
  page: () => rendered.show(result.pieces, result.leaves.map((it) => it?.word)),
  html: () => {
    const parts = result.pieces.map(([leaf, html]) => {
      if (!leaf) return html;
      const part = document.createElement("span");
      part.dataset.leaf = leaf;
      part.textContent = html;
      return part;
    });
    panels.html.firstElementChild.replaceChildren(...parts);
  },
  tree: () => panels.tree.lastElementChild.replaceChildren(...result.roots.map((it) => draw(it, result.leaves, folded))),
  source: () => {
    panels.source.classList.toggle("refused", "error" in result.source);
    panels.source.firstElementChild.textContent = result.source.text ?? result.source.error;
  },
};

function drawPanel() {
  if (result) drawers[shown]();
  markPanel(false);
}

// Marks the leaf in the panel that is shown.
function markPanel(reveals) {
  if (shown === "page") {
    rendered.mark(marked, reveals);
    return;
  }
  for (const part of panels[shown].querySelectorAll("[data-leaf]")) {
    const isMarked = Number(part.dataset.leaf) === marked;
    part.classList.toggle("owned", isMarked);
    if (isMarked && reveals) part.scrollIntoView({ block: "nearest" });
  }
}

function open(tab) {
  shown = tab.getAttribute("aria-controls");
  for (const it of tabs) {
    it.setAttribute("aria-selected", it === tab);
    it.tabIndex = it === tab ? 0 : -1;
  }
  for (const [name, panel] of Object.entries(panels)) panel.hidden = name !== shown;
  drawPanel();
  markPanel(true);
}

function moveTab(event) {
  const step = { ArrowLeft: -1, ArrowRight: 1, Home: -Infinity, End: Infinity }[event.key];
  if (!step) return;
  const at = tabs.indexOf(event.target) + step;
  const tab = Number.isFinite(step) ? tabs.at(at % tabs.length) : tabs.at(step < 0 ? 0 : -1);
  event.preventDefault();
  tab.focus();
  open(tab);
}

// ---- which block and which lines belong together

// Marks a leaf and its lines, or none for 0. `reveals` says in which of both to scroll to it.
function choose(leaf, reveals) {
  const { word, lines } = (isCurrent && result.leaves[leaf]) || { lines: [] };
  marked = lines.length ? leaf : 0;
  editor.markLines(lines[0], lines.at(-1));
  if (lines.length && reveals.text) editor.reveal(lines[0]);
  markPanel(reveals.panel);
  const said = lines.length > 1 ? `Lines ${lines[0]}–${lines.at(-1)}` : `Line ${lines[0]}`;
  find("#place").textContent = marked ? `${said}: ${word}, leaf ${leaf}` : "";
}

function followCursor() {
  const { line } = editor, owner = isCurrent ? result.owners[line] : null;
  choose(owner?.leaf ?? 0, { panel: true });
  if (owner && !owner.leaf) find("#place").textContent = `Line ${line}: ${owner.kind}`;
}

function chooseClicked(event) {
  const part = event.target.closest("[data-leaf]");
  if (part) choose(Number(part.dataset.leaf), { text: true });
}

// ---- the start

function fold(event) {
  const { fold } = event.target.dataset;
  if (fold === undefined) return;
  folded.clear();
  const all = (nodes) => nodes.forEach((it) => (it.leaf ? folded.add(it.path) : all(it.children)));
  if (fold) all(result?.roots ?? []);
  drawPanel();
}

// Resolves once the frame has its own document.
function framed(frame) {
  const isThere = () => frame.contentDocument?.URL.endsWith("/frame.html") && frame.contentDocument.readyState === "complete";
  return isThere() ? Promise.resolve() : new Promise((done) => frame.addEventListener("load", () => isThere() && done()));
}

function textChanged() {
  editor.draw();
  convert();
}

async function start() {
  await framed(find("#frame"));
  rendered = new Rendered(find("#frame"), panels.page.firstElementChild, (leaf) => choose(leaf, { text: true }));
  editor.field.value ||= await (await fetch("sample")).json();
  editor.field.setSelectionRange(0, 0);
  editor.field.addEventListener("input", textChanged);
  document.addEventListener("selectionchange", () => document.activeElement === editor.field && !isBusy && followCursor());
  options.addEventListener("input", () => (showImplied(), convert()));
  options.addEventListener("submit", (event) => event.preventDefault());
  find("#error button").addEventListener("click", () => editor.goToError());
  find('[role="tablist"]').addEventListener("keydown", moveTab);
  tabs.forEach((tab) => tab.addEventListener("click", () => open(tab)));
  panels.html.addEventListener("click", chooseClicked);
  panels.tree.addEventListener("click", chooseClicked);
  panels.tree.firstElementChild.addEventListener("click", fold);
  showImplied();
  textChanged();
}

start();

// The listing of `cmk tree`: its nodes, and the leaf that owns each line.

const CONTAINERS = ["quote", "list", "item"];

// Returns the nodes of a listing, its leaves by their numbers, and for each line of the text its owner.
export function read(listing) {
  const roots = [], leaves = [null], owners = [null], open = [];
  for (const line of listing.split("\n").slice(0, -1)) {
    const [, indent, word, rest] = /^( *)(\w+)(.*)$/s.exec(line), depth = indent.length / 2;
    if (word === "owner") {
      const [number, kind, leaf] = rest.trim().split(" ");
      owners[number] = { kind, leaf: Number(leaf ?? 0) };
      continue;
    }
    const around = open[depth - 1];
    const node = { word, rest, children: [], leaf: 0, path: `${around?.path ?? ""}/${(around?.children ?? roots).length}` };
    if (!CONTAINERS.includes(word) && (!around || CONTAINERS.includes(around.word))) node.leaf = leaves.push({ word, lines: [] }) - 1;
    (around?.children ?? roots).push(node);
    open[depth] = node;
  }
  owners.forEach((owner, line) => owner?.leaf && leaves[owner.leaf].lines.push(line));
  return { roots, leaves, owners };
}

function element(name, className, ...children) {
  const made = document.createElement(name);
  made.className = className;
  made.append(...children);
  return made;
}

// Returns the element of a node, with those of its children. `folded` has the paths of the nodes that are folded.
export function draw(node, leaves, folded) {
  const words = [element("b", "", node.word), node.rest];
  const { lines } = leaves[node.leaf] ?? { lines: [] };
  if (lines.length) words.unshift(element("span", "lines", lines.length > 1 ? `${lines[0]}–${lines.at(-1)}` : lines[0]));
  const line = element(node.children.length ? "summary" : "div", "node", ...words);
  if (node.leaf) line.dataset.leaf = node.leaf;
  if (!node.children.length) return line;
  const whole = element("details", "", line, ...node.children.map((it) => draw(it, leaves, folded)));
  whole.open = !folded.has(node.path);
  whole.addEventListener("toggle", () => (whole.open ? folded.delete(node.path) : folded.add(node.path)));
  return whole;
}

// The rendered page in its frame, and where each leaf of the text is in it.
//
// The HTML comes in pieces, cut where a leaf starts and ends. A comment at each cut shows where the leaf is once the browser has parsed the
// HTML. Raw HTML may reach over the blocks after it: a comment that isn't closed takes them in, a table puts them out. Then the comments
// change what the browser makes of the HTML, or a leaf isn't between its comments, and nothing is located.

const BOX = "owned-block";
// How far the box around a block exceeds it.
const ROOM = { x: 6, y: 4 };

function parsed(html) {
  const { body } = document.implementation.createHTMLDocument("");
  body.innerHTML = html;
  return body;
}

function commentsIn(body, key) {
  const walker = document.createTreeWalker(body, NodeFilter.SHOW_COMMENT), found = [];
  while (walker.nextNode()) if (walker.currentNode.data.startsWith(key)) found.push(walker.currentNode);
  return found;
}

// Returns whether there is an element or a text between two nodes.
function isBetween(start, end) {
  const walker = document.createTreeWalker(start.getRootNode());
  walker.currentNode = start;
  for (let node = walker.nextNode(); node && node !== end; node = walker.nextNode()) {
    if (node.nodeType === Node.ELEMENT_NODE || (node.nodeType === Node.TEXT_NODE && node.data.trim())) return true;
  }
  return false;
}

// Returns the parsed HTML of the pieces, and the comments around each leaf in it, or no leaves if they can't be located. `kinds` has the
// kind of each leaf.
export function locate(pieces, kinds) {
  const key = crypto.randomUUID();
  const plain = parsed(pieces.map(([, html]) => html).join(""));
  const body = parsed(pieces.map(([leaf, html]) => (leaf ? `<!--${key}${leaf}-->${html}<!--${key}-->` : html)).join(""));
  const marks = commentsIn(body, key), leaves = [];
  for (let at = 0; at + 1 < marks.length; at += 2) {
    leaves.push({ number: Number(marks[at].data.slice(key.length)), start: marks[at], end: marks[at + 1] });
  }
  const bare = body.cloneNode(true);
  commentsIn(bare, key).forEach((it) => it.remove());
  bare.normalize();
  plain.normalize();
  const isRight =
    bare.isEqualNode(plain) &&
    marks.length === 2 * pieces.filter(([leaf]) => leaf).length &&
    leaves.every((it) => kinds[it.number] === "html" || isBetween(it.start, it.end));
  return isRight ? { body, leaves } : { body: plain, leaves: [] };
}

function isBefore(one, other) {
  return Boolean(one.compareDocumentPosition(other) & Node.DOCUMENT_POSITION_FOLLOWING);
}

export class Rendered {
  // `choose` is called with the number of a leaf that was clicked, or with 0.
  constructor(frame, note, choose) {
    Object.assign(this, { frame, note, leaves: [], marked: null });
    const page = frame.contentDocument;
    this.box = page.documentElement.appendChild(page.createElement("div"));
    this.box.id = BOX;
    page.addEventListener("click", (event) => {
      if (event.target.closest?.("a, area")) event.preventDefault();
      choose(this.leafAt(event.target, event.clientY)?.number ?? 0);
    });
    new frame.contentWindow.ResizeObserver(() => this.place()).observe(page.body);
  }

  show(pieces, kinds) {
    const { body, leaves } = locate(pieces, kinds);
    this.leaves = leaves;
    this.note.hidden = leaves.length > 0 || pieces.every(([, html]) => !html);
    this.frame.contentDocument.body.replaceChildren(...body.childNodes);
  }

  rect(leaf) {
    const range = this.frame.contentDocument.createRange();
    range.setStartAfter(leaf.start);
    range.setEndBefore(leaf.end);
    return range.getBoundingClientRect();
  }

  // Returns the leaf that a node is in, or the leaf inside the node that is nearest to a height.
  leafAt(node, y) {
    let low = 0, high = this.leaves.length;
    while (low < high) {
      const middle = (low + high) >> 1;
      if (isBefore(this.leaves[middle].start, node)) low = middle + 1;
      else high = middle;
    }
    const last = this.leaves[low - 1];
    if (last && isBefore(node, last.end)) return last;
    const away = (leaf) => {
      const { top, bottom } = this.rect(leaf);
      return Math.max(top - y, y - bottom, 0);
    };
    const inside = this.leaves.filter((it) => node.contains(it.start)).map((leaf) => ({ leaf, away: away(leaf) }));
    return inside.reduce((best, it) => (it.away < best.away ? it : best), { away: Infinity }).leaf;
  }

  // Marks a leaf by its number, and scrolls to it if it isn't in view. 0 marks none.
  mark(number, reveals) {
    this.marked = this.leaves.find((it) => it.number === number) ?? null;
    this.place();
    if (!this.marked || !reveals) return;
    const { top, bottom } = this.rect(this.marked), view = this.frame.contentWindow;
    if (top < 0 || bottom > view.innerHeight) view.scrollBy(0, top - Math.max(24, (view.innerHeight - bottom + top) / 2));
  }

  // Puts the box around the marked leaf.
  place() {
    const rect = this.marked && this.rect(this.marked);
    this.box.hidden = !rect || (!rect.width && !rect.height);
    if (this.box.hidden) return;
    const view = this.frame.contentWindow;
    this.box.style.left = `${rect.left + view.scrollX - ROOM.x}px`;
    this.box.style.top = `${rect.top + view.scrollY - ROOM.y}px`;
    this.box.style.width = `${rect.width + 2 * ROOM.x}px`;
    this.box.style.height = `${rect.height + 2 * ROOM.y}px`;
  }
}

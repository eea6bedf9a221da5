// For .ci/pages, in the page: what it shows, and what it marks. The blocks of the rendered page are found by the elements of CommonMark
// alone. So its text must have no raw HTML; then the elements are those that the library writes.
(() => {
  const LEAVES = ["P", "H1", "H2", "H3", "H4", "H5", "H6", "PRE", "HR"], HOLDERS = ["UL", "OL", "LI", "BLOCKQUOTE"];
  const page = () => document.querySelector("#frame").contentDocument;
  const text = document.querySelector("#text");

  // Returns the blocks below a node in their order: each a range over its element, or over the inlines of a tight paragraph.
  const blocks = (node, found = []) => {
    let run = null;
    for (const child of node.childNodes) {
      const isHolder = HOLDERS.includes(child.nodeName), isLeaf = LEAVES.includes(child.nodeName);
      if (isHolder || isLeaf) run = null;
      if (isHolder) blocks(child, found);
      else if (isLeaf || (child.nodeType === Node.TEXT_NODE ? child.data.trim() : child.nodeType === Node.ELEMENT_NODE)) {
        if (!run) found.push((run = page().createRange())), run.setStartBefore(child);
        run.setEndAfter(child);
        if (isLeaf) run = null;
      }
    }
    return found;
  };

  // The numbers of the lines that have a class.
  const lines = (name) => [...document.querySelectorAll("#lines .line")].flatMap((it, at) => (it.classList.contains(name) ? [at + 1] : []));
  const marked = () => lines("owned");

  // The edges of a block or an element, which stay where they are when the page is scrolled.
  const edges = (it) => {
    const { top, bottom, left, right } = it.getBoundingClientRect(), { scrollY } = page().defaultView;
    return [top + scrollY, left, -bottom - scrollY, -right];
  };

  // The block that the box is around, counted from 0, or -1. `found` has the edges of the blocks.
  const boxed = (found) => {
    const box = page().querySelector("#owned-block"), around = edges(box);
    const isInside = (block) => block.every((it, at) => it >= around[at] && it < around[at] + 12);
    return box.hidden ? -1 : found.findIndex(isInside);
  };

  // The lines of the tree below an element, indented as in the listing.
  const listing = (at, depth) => [...at.children].flatMap((it) => {
    if (it.localName === "details") return listing(it, depth + 1);
    const line = it.cloneNode(true);
    line.querySelector(".lines")?.remove();
    return ["  ".repeat(it.localName === "summary" ? depth - 1 : depth) + line.textContent + "\n"];
  });

  // The contrast of two colours of the page.
  const contrast = (one, other) => {
    const probe = document.body.appendChild(document.createElement("i"));
    const linear = (it) => (it / 255 <= 0.03928 ? it / 255 / 12.92 : ((it / 255 + 0.055) / 1.055) ** 2.4);
    const luminance = (name) => {
      probe.style.color = `var(--${name})`;
      const [red, green, blue] = getComputedStyle(probe).color.match(/[\d.]+/g).map(Number).map(linear);
      return 0.2126 * red + 0.7152 * green + 0.0722 * blue;
    };
    const [less, more] = [luminance(one), luminance(other)].sort((a, b) => a - b);
    probe.remove();
    return (more + 0.05) / (less + 0.05);
  };

  // Scrolls a block into view, and returns a point that hits it.
  const pointOf = (range) => {
    const start = range.startContainer.childNodes[range.startOffset];
    (start.nodeType === Node.ELEMENT_NODE ? start : start.parentNode).scrollIntoView({ block: "start" });
    const inside = page().createRange();
    inside.selectNodeContents(start);
    const rect = [...inside.getClientRects(), ...range.getClientRects()].find((it) => it.width && it.height) ?? range.getBoundingClientRect();
    return [rect.left + Math.min(rect.width / 2, 3), rect.top + Math.min(rect.height / 2, 3)];
  };

  window.tried = {
    marked,
    boxed: () => boxed(blocks(page().body).map(edges)),
    listing: () => listing(document.querySelector("#tree .nodes"), 0).join(""),
    error: () => [lines("wrong"), document.querySelector("#lines mark")?.textContent ?? "", document.querySelector("#error span").textContent],
    // How many of some elements aren't all within the window.
    outside: (selector) => [...document.querySelectorAll(selector)].filter((it) => {
      const { left, right, top, bottom } = it.getBoundingClientRect();
      return left < 0 || top < 0 || right > innerWidth || bottom > innerHeight;
    }).length,
    contrast: (pairs) => Math.min(...pairs.map(([one, other]) => contrast(one, other))),
    write: (it) => {
      text.value = it;
      text.dispatchEvent(new Event("input"));
    },
    set: (name, value) => {
      const option = document.querySelector(`[name=${name}]`);
      option.value = value;
      option.dispatchEvent(new Event("input", { bubbles: true }));
    },
    // Puts the cursor before a character.
    move: (at) => {
      text.focus();
      text.setSelectionRange(at, at);
    },
    // The point of a block within the window.
    point: (number) => {
      const [x, y] = pointOf(blocks(page().body)[number]), { left, top } = document.querySelector("#frame").getBoundingClientRect();
      return [left + x, top + y];
    },
    // The lines that are marked once each block has been clicked on.
    clicked: () => blocks(page().body).map((range) => {
      const [x, y] = pointOf(range), target = page().elementFromPoint(x, y) ?? page().body;
      target.dispatchEvent(new MouseEvent("click", { bubbles: true, cancelable: true, clientX: x, clientY: y }));
      return marked();
    }),
    // The block that the box is around once the cursor is on each line.
    followed: () => {
      const found = blocks(page().body).map(edges);
      let at = 0;
      return text.value.split("\n").map((line) => {
        tried.move(at);
        at += line.length + 1;
        document.dispatchEvent(new Event("selectionchange"));
        return boxed(found);
      });
    },
  };
})();

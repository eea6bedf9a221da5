// The text field, and below it the same text in lines, which have the numbers and the marks.

export class Editor {
  constructor(field, lines, scroller) {
    Object.assign(this, { field, lines, scroller, drawn: [], owned: [], wrong: null });
  }

  get text() {
    return this.field.value;
  }

  // The number of the line that has the cursor.
  get line() {
    return this.text.slice(0, this.field.selectionStart).split("\n").length;
  }

  // Draws the lines that have changed.
  draw() {
    this.markError(null);
    const now = this.text.split("\n"), before = this.drawn;
    const most = Math.min(now.length, before.length);
    let start = 0, end = 0;
    while (start < most && now[start] === before[start]) start++;
    while (end < most - start && now.at(-1 - end) === before.at(-1 - end)) end++;
    for (let left = before.length - end - start; left > 0; left--) this.lines.children[start].remove();
    const added = document.createDocumentFragment();
    for (const text of now.slice(start, now.length - end)) {
      const line = added.appendChild(document.createElement("div"));
      line.className = "line";
      line.textContent = text;
    }
    this.lines.insertBefore(added, this.lines.children[start] ?? null);
    this.drawn = now;
  }

  // Marks the lines from the first to the last, or none.
  markLines(first, last) {
    this.owned.forEach((it) => it.classList.remove("owned"));
    this.owned = first ? Array.from({ length: last - first + 1 }, (_, at) => this.lines.children[first - 1 + at]).filter(Boolean) : [];
    this.owned.forEach((it) => it.classList.add("owned"));
  }

  // Marks an error: in one line from its place on, or in whole lines. Null removes the mark.
  markError(error) {
    for (const line of this.lines.querySelectorAll(".wrong")) {
      line.classList.remove("wrong");
      line.textContent = line.textContent;
    }
    this.wrong = error && this.placeOf(error);
    if (!this.wrong) return;
    const { first, last, column } = this.wrong;
    for (let at = first; at <= last; at++) {
      const line = this.lines.children[at - 1], text = line.textContent, mark = document.createElement("mark");
      mark.textContent = text.slice(column);
      mark.classList.toggle("long", column < text.length);
      line.classList.add("wrong");
      line.replaceChildren(text.slice(0, column), mark);
    }
  }

  // Returns the lines of an error and its column, or null if it has none.
  placeOf({ at, lines }) {
    if (lines) return { first: lines[0], last: lines[1], column: 0 };
    if (at === undefined) return null;
    const before = this.text.slice(0, at).split("\n");
    return { first: before.length, last: before.length, column: before.at(-1).length };
  }

  // Puts the cursor where the error is.
  goToError() {
    const { first, column } = this.wrong;
    const at = this.drawn.slice(0, first - 1).reduce((sum, it) => sum + it.length + 1, column);
    this.field.focus();
    this.field.setSelectionRange(at, at);
    this.reveal(first);
  }

  reveal(line) {
    const box = this.lines.children[line - 1].getBoundingClientRect(), view = this.scroller.getBoundingClientRect();
    if (box.top < view.top || box.bottom > view.bottom) {
      this.scroller.scrollTop += (box.top + box.bottom - view.top - view.bottom) / 2;
    }
  }
}

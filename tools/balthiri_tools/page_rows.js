// A list of many rows of one height, of which only those in view, and a few about them, are in the document.

const ROWS_BEYOND_VIEW = 8;
const MOST_ROWS_PRINTED = 2000;

// An element with attributes, and with text or children.
function element(name, attributes = {}, ...children) {
  const made = document.createElement(name);
  for (const [key, value] of Object.entries(attributes)) made.setAttribute(key, value);
  made.append(...children);
  return made;
}

class Rows {
  // build() makes the element of a row, fill(row, item, at) writes an item into it, pick(item, at) hears what was picked.
  constructor({ scroller, height, build, fill, pick, open = () => {} }) {
    Object.assign(this, { scroller, height, build, fill, pick, open });
    this.items = [];
    this.picked = -1;
    this.shown = new Map();
    this.spare = [];
    this.space = element("div", { class: "space", role: "presentation" });
    scroller.append(this.space);
    scroller.addEventListener("scroll", () => this.drawSoon(), { passive: true });
    scroller.addEventListener("keydown", (event) => this.onKey(event));
    scroller.addEventListener("click", (event) => this.onClick(event));
    new ResizeObserver(() => this.drawSoon()).observe(scroller);
  }

  show(items, picked = -1) {
    this.items = items;
    this.picked = picked;
    this.space.style.height = `${items.length * this.height}px`;
    if (this.scroller.getAttribute("role") === "grid") this.scroller.setAttribute("aria-rowcount", items.length);
    this.redraw();
  }

  redraw() {
    for (const row of this.shown.values()) this.put(row);
    this.shown.clear();
    this.draw();
  }

  drawSoon() {
    if (this.isAsked) return;
    this.isAsked = true;
    requestAnimationFrame(() => { this.isAsked = false; this.draw(); });
  }

  draw() {
    const { scrollTop, clientHeight } = this.scroller;
    if (!clientHeight || this.isPrinting) return;
    const first = Math.max(0, Math.floor(scrollTop / this.height) - ROWS_BEYOND_VIEW);
    const last = Math.min(this.items.length, Math.ceil((scrollTop + clientHeight) / this.height) + ROWS_BEYOND_VIEW);
    this.drawPart(first, last);
  }

  drawPart(first, last) {
    for (const [at, row] of this.shown) {
      if (at < first || at >= last) {
        this.put(row);
        this.shown.delete(at);
      }
    }
    for (let at = first; at < last; at += 1) if (!this.shown.has(at)) this.shown.set(at, this.take(at));
    this.mark();
  }

  put(row) {
    row.hidden = true;
    this.spare.push(row);
  }

  take(at) {
    const row = this.spare.pop() ?? this.space.appendChild(this.build());
    row.hidden = false;
    row.style.transform = `translateY(${at * this.height}px)`;
    row.dataset.at = at;
    row.id = `${this.scroller.id}-${at}`;
    if (row.getAttribute("role") === "row") row.setAttribute("aria-rowindex", at + 1);
    else {
      row.setAttribute("aria-posinset", at + 1);
      row.setAttribute("aria-setsize", this.items.length);
    }
    this.fill(row, this.items[at], at);
    return row;
  }

  mark() {
    for (const [at, row] of this.shown) row.setAttribute("aria-selected", at === this.picked);
    if (this.shown.has(this.picked)) this.scroller.setAttribute("aria-activedescendant", `${this.scroller.id}-${this.picked}`);
    else this.scroller.removeAttribute("aria-activedescendant");
  }

  // Picks a row, brings it into view, and tells it.
  choose(at) {
    if (at < 0 || at >= this.items.length) return;
    this.picked = at;
    this.reveal(at);
    this.draw();
    this.pick(this.items[at], at);
    this.reveal(at); // what was picked may have opened beside or below
  }

  reveal(at) {
    const { scrollTop, clientHeight } = this.scroller;
    const top = at * this.height;
    if (top < scrollTop) this.scroller.scrollTop = top;
    else if (top + this.height > scrollTop + clientHeight) this.scroller.scrollTop = top + this.height - clientHeight;
  }

  // As reveal, in the middle of the view.
  centre(at) {
    this.scroller.scrollTop = Math.max(0, (at + 0.5) * this.height - this.scroller.clientHeight / 2);
  }

  onKey(event) {
    if (event.ctrlKey || event.altKey || event.metaKey) return;
    const page = Math.max(1, Math.floor(this.scroller.clientHeight / this.height) - 1);
    const last = this.items.length - 1;
    const to = { ArrowDown: this.picked + 1, ArrowUp: this.picked - 1, PageDown: this.picked + page, PageUp: this.picked - page, Home: 0, End: last }[event.key];
    if (to !== undefined) {
      event.preventDefault();
      this.choose(Math.min(last, Math.max(0, to)));
    } else if (event.key === "Enter" && this.picked >= 0) {
      event.preventDefault();
      this.open();
    }
  }

  onClick(event) {
    const row = event.target.closest("[data-at]");
    if (row) this.choose(Number(row.dataset.at));
  }

  // Before printing all rows stand one below another, to a limit; behind it those in view again.
  print(isPrinting) {
    if (isPrinting) this.drawPart(0, Math.min(this.items.length, MOST_ROWS_PRINTED));
    if (isPrinting) this.space.append(...[...this.shown.keys()].sort((one, other) => one - other).map((at) => this.shown.get(at)));
    this.isPrinting = isPrinting;
    if (!isPrinting) this.draw();
  }
}

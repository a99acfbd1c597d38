'use strict';
// The editor of the query: a text area, and the same text in colors behind it, with the places of a refusal marked.

class QueryEditor {
  constructor(area, back) {
    this.area = area;
    this.back = back;
    this.marks = [];
    area.addEventListener('scroll', () => this.follow());
    new ResizeObserver(() => this.follow()).observe(area);
  }

  get text() {
    return this.area.value;
  }

  set text(text) {
    this.area.value = text;
    this.mark([]);
  }

  // Marks places, each from one byte of the text to another.
  mark(places) {
    const bytes = new TextEncoder().encode(this.text);
    const lettersTo = (count) => new TextDecoder('utf-8', { ignoreBOM: true }).decode(bytes.subarray(0, count)).length;
    this.marks = places.map(({ from, to }) => ({ from: lettersTo(from), to: lettersTo(to) }));
    this.draw();
  }

  draw() {
    const text = this.text;
    const shown = document.createDocumentFragment();
    const cuts = this.marks.flatMap(({ from, to }) => [from, to]);
    for (const { from, to, kind } of partsOfQuery(text)) {
      const edges = [from, ...cuts.filter((cut) => cut > from && cut < to).sort((a, b) => a - b), to];
      for (let at = 0; at + 1 < edges.length; at++) shown.append(this.piece(text.slice(edges[at], edges[at + 1]), kind, edges[at]));
    }
    for (const { from, to } of this.marks) {
      if (from === to && from === text.length) shown.append(element('mark', 'end', '\u200b'));
    }
    // The last line is as high as others, also where it is empty.
    shown.append('\n');
    this.back.replaceChildren(shown);
    this.follow();
  }

  piece(text, kind, at) {
    const isMarked = this.marks.some(({ from, to }) => from <= at && at < to);
    const piece = element(isMarked ? 'mark' : 'span', kind, text);
    return piece;
  }

  follow() {
    this.back.style.width = `${this.area.clientWidth}px`;
    this.back.style.transform = `translate(${-this.area.scrollLeft}px, ${-this.area.scrollTop}px)`;
  }
}

function element(name, kind, ...inside) {
  const made = document.createElement(name);
  if (kind) made.className = kind;
  made.append(...inside);
  return made;
}

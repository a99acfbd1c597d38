'use strict';
// The items, with the number of each line before it and its answer beside it. Few lines are typed in a text area. Browsers take seconds
// for a letter among very many, so these are a list, to which lines can be added. Only what is in sight is drawn.

// Among so many lines at most one can type.
const MOST_TYPED = 2000;

// No browser has a part of a page that is higher, in pixels.
const HIGHEST = 15_000_000;

const CAUSES = {
  long: 'more than 65,536 bytes',
  cr: 'a CR inside of the line',
  columns: 'more or fewer fields than columns',
  number: 'not written as a number of this column',
  digits: 'too many digits after the point',
  range: 'not from -2^63 to 2^63-1',
};

class ItemsEditor {
  constructor(parts) {
    Object.assign(this, parts);
    this.whole = '';
    this.lines = [];
    this.told = [];
    this.places = [];
    this.columns = [];
    this.pointed = -1;
    this.first = 0;
    for (const scroller of [this.area, this.list]) {
      scroller.addEventListener('scroll', () => this.draw());
      new ResizeObserver(() => this.draw()).observe(scroller);
    }
  }

  get text() {
    return this.whole;
  }

  set text(text) {
    this.take(text);
    this.scroller.scrollTop = 0;
  }

  get isLong() {
    return this.lines.length > MOST_TYPED;
  }

  get scroller() {
    return this.isLong ? this.list : this.area;
  }

  // Reads the lines anew from the text area; answers stay as they were.
  read() {
    this.take(this.area.value);
  }

  take(text) {
    this.whole = text.replaceAll('\r\n', '\n');
    this.lines = linesOf(this.whole);
    const typed = this.isLong ? '' : this.whole;
    if (this.area.value !== typed) this.area.value = typed;
    this.area.hidden = this.isLong;
    this.list.hidden = this.more.hidden = !this.isLong;
    this.count.textContent = `${this.lines.length.toLocaleString('en')} lines, too many to type among`;
    this.measure();
    this.draw();
  }

  measure() {
    const widest = this.lines.slice(0, 500).reduce((most, line) => Math.max(most, line.length), 10);
    this.frame.style.setProperty('--items', `${widest + 3}ch`);
    this.frame.style.setProperty('--digits', `${String(this.lines.length).length + 1}ch`);
    this.list.firstElementChild.style.height = `${Math.min(this.lines.length * this.lineHeight, HIGHEST)}px`;
  }

  show(told, places, columns) {
    Object.assign(this, { told, places, columns });
    this.draw();
  }

  // The answer to a line, or nothing where it has none.
  answerAt(line) {
    return this.told[this.places[line]];
  }

  // Why a line is skipped, in words.
  causeOf(answer) {
    const [, cause, column] = /^skipped (\w+) (\d+)$/.exec(answer) ?? [];
    if (!cause) return '';
    const name = Number(column) > 0 ? `${this.columns[column - 1] ?? `column ${column}`}: ` : '';
    return `${name}${CAUSES[cause] ?? cause}`;
  }

  get lineHeight() {
    return parseFloat(getComputedStyle(this.frame).getPropertyValue('--row'));
  }

  draw() {
    const height = this.lineHeight;
    const { scrollTop, clientHeight } = this.scroller;
    this.first = Math.max(Math.floor(scrollTop / height) - 2, 0);
    const last = Math.min(this.first + Math.ceil(clientHeight / height) + 5, this.lines.length);
    const drawn = [];
    for (let line = this.first; line < last; line++) drawn.push(line);
    const shift = this.first * height - scrollTop;
    const kind = (line) => (line === this.pointed ? 'row pointed' : 'row');
    this.fill(this.numbers, shift, drawn.map((line) => element('div', kind(line), String(line + 1))));
    this.fill(this.answers, shift, drawn.map((line) => this.row(line, kind(line))));
    if (!this.isLong) return;
    const texts = drawn.map((line) => element('div', kind(line), this.lines[line] || '\u00a0'));
    this.fill(this.list.lastElementChild, shift + scrollTop, texts);
  }

  fill(column, shift, rows) {
    column.replaceChildren(...rows);
    column.style.transform = `translateY(${shift}px)`;
  }

  row(line, kind) {
    const answer = this.answerAt(line);
    if (answer === undefined) return element('div', kind, '\u00a0');
    if (answer === 'undefined') return element('div', `${kind} nothing`, answer);
    if (!answer.startsWith('skipped ')) return element('div', kind, answer);
    const row = element('div', `${kind} skipped`, answer, element('small', '', ` ${this.causeOf(answer)}`));
    row.title = this.causeOf(answer);
    return row;
  }

  point(line) {
    if (line === this.pointed) return;
    this.pointed = line;
    this.draw();
  }

  // The line at a height of the screen, or -1.
  lineAt(y) {
    const line = this.first + Math.floor((y - this.answers.getBoundingClientRect().top) / this.lineHeight);
    return line < this.lines.length ? line : -1;
  }

  // The line that the caret is in.
  get caretLine() {
    if (this.isLong) return this.pointed;
    return this.whole.slice(0, this.area.selectionStart).split('\n').length - 1;
  }

  // Scrolls until the line is in sight.
  reach(line) {
    const height = this.lineHeight;
    const above = line * height - this.scroller.scrollTop;
    const isSeen = above >= 0 && above <= this.scroller.clientHeight - 2 * height;
    if (!isSeen) this.scroller.scrollTop = (line + 0.5) * height - this.scroller.clientHeight / 2;
  }

  // Puts the caret at the front of the line.
  enter(line) {
    this.scroller.focus();
    if (!this.isLong) {
      const at = this.lines.slice(0, line).reduce((count, it) => count + it.length + 1, 0);
      this.area.setSelectionRange(at, at);
    }
    this.reach(line);
  }

  // What a paste makes of the text, where it is too long for the text area; or nothing.
  pasted(text) {
    if (linesOf(text).length + this.lines.length <= MOST_TYPED) return undefined;
    if (this.isLong) return text;
    const { selectionStart, selectionEnd, value } = this.area;
    return value.slice(0, selectionStart) + text + value.slice(selectionEnd);
  }
}

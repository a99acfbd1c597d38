'use strict';
// The page: its parts, and what happens where something is typed, chosen or shared.

const part = (name) => document.getElementById(name);

// So long the page waits for the next letter, in milliseconds.
const PAUSE = 80;

// An address is kept up to date up to so many letters; a longer one is made where it is asked for.
const LONGEST_ADDRESS = 4000;

// A file is read up to so many bytes.
const LONGEST_FILE = 8_000_000;

const LACKS = 'It needs WebAssembly with a memory of 64 bits, which current Chromium and Firefox have.';

const STATUSES = {
  6: 'The page has no more memory for it. Some whole lines are answered, and none in part.',
};

class Page {
  constructor(background) {
    this.background = background;
    this.query = new QueryEditor(part('query'), part('colors'));
    this.items = new ItemsEditor({
      area: part('items'),
      list: part('list'),
      numbers: part('numbers'),
      answers: part('answers'),
      frame: part('stream'),
      more: part('more'),
      count: part('count'),
    });
    this.verdict = new Verdict(part('verdict'));
    this.chart = new Chart(part('chart'), part('legend'));
    this.turn = 0;
    this.example = '';
    this.wanted = null;
    this.listen();
  }

  listen() {
    part('query').addEventListener('input', () => this.changeQuery());
    part('menu').addEventListener('change', () => this.showExample(part('menu').value));
    part('share').addEventListener('click', () => this.share());
    part('open').addEventListener('click', () => part('file').click());
    part('file').addEventListener('change', () => this.openFile(part('file').files[0]));
    for (const event of ['dragover', 'drop']) addEventListener(event, (it) => this.drop(it));
    this.listenToItems();
    this.listenToChart();
    addEventListener('hashchange', () => this.showAddress());
  }

  listenToItems() {
    const [area, list] = [part('items'), part('list')];
    area.addEventListener('input', () => this.changeItems());
    for (const event of ['click', 'keyup']) area.addEventListener(event, () => this.pointAt(this.items.caretLine));
    for (const element of [area, list]) element.addEventListener('paste', (event) => this.paste(event));
    for (const element of [list, part('answers')]) element.addEventListener('mousemove', ({ clientY }) => this.pointAt(this.items.lineAt(clientY)));
    list.addEventListener('keydown', (event) => this.move(event, this.pointed, this.items.lines.length - 1, (line) => this.pointAtLine(line)));
    part('more').addEventListener('submit', (event) => this.addLine(event));
    part('shorten').addEventListener('click', () => this.changeItemsTo(`${this.items.lines.slice(0, MOST_TYPED).join('\n')}\n`));
  }

  listenToChart() {
    const chart = part('chart');
    chart.addEventListener('mousemove', ({ offsetX }) => this.pointAtIndex(this.chart.indexAt(offsetX)));
    chart.addEventListener('mouseleave', () => this.pointAt(-1));
    chart.addEventListener('click', () => this.pointed >= 0 && this.items.enter(this.pointed));
    chart.addEventListener('keydown', (event) => {
      this.move(event, this.chart.pointed, this.chart.data.at.length - 1, (index) => this.pointAtIndex(index));
      if (event.key !== 'Enter' || this.pointed < 0) return;
      // Else the letter would be typed there.
      event.preventDefault();
      this.items.enter(this.pointed);
    });
  }

  // By its keys one goes through the lines of a list, or through the answers of the chart.
  move(event, from, last, go) {
    const ways = { ArrowLeft: -1, ArrowUp: -1, ArrowRight: 1, ArrowDown: 1, PageUp: -20, PageDown: 20, Home: -Infinity, End: Infinity };
    const way = ways[event.key];
    if (way === undefined || last < 0) return;
    event.preventDefault();
    go(Math.min(Math.max(from + way, 0), last));
  }

  paste(event) {
    const text = this.items.pasted(event.clipboardData.getData('text/plain'));
    if (text === undefined) return;
    event.preventDefault();
    this.changeItemsTo(text);
  }

  addLine(event) {
    event.preventDefault();
    const { text } = this.items;
    this.items.take(`${text}${text.endsWith('\n') ? '' : '\n'}${part('added').value}\n`);
    part('added').value = '';
    this.items.reach(this.items.lines.length - 1);
    this.change();
  }

  changeItemsTo(text) {
    this.items.text = text;
    this.items.scroller.focus();
    this.change();
  }

  changeQuery() {
    this.query.mark([]);
    this.change();
  }

  changeItems() {
    this.items.read();
    this.change();
  }

  change() {
    this.example = '';
    this.wanted = null;
    part('menu').value = '';
    this.await();
  }

  // What is on the page is answered once nothing has been typed for a moment.
  await(pause = PAUSE) {
    this.turn++;
    document.body.dataset.state = 'waiting';
    clearTimeout(this.timer);
    this.timer = setTimeout(() => this.answer(), pause);
  }

  async answer() {
    const turn = this.turn;
    const query = this.query.text;
    const outline = outlineOf(query);
    document.body.dataset.state = 'running';
    this.background.clear();
    try {
      const ran = await this.background.ask('answer', { query, items: this.items.text, hasHeader: outline.hasHeader });
      if (turn !== this.turn) return;
      this.showRun(ran, outline);
      const explained = await this.background.ask('explain', { query, isRefused: ran.status === 1 });
      if (turn !== this.turn) return;
      this.explain(ran, explained, outline);
    } catch (error) {
      if (turn !== this.turn) return;
      this.fail(error);
    }
    document.body.dataset.state = 'done';
    this.keepAddress();
  }

  // While a query is refused, the answers to the one before stay, pale.
  showRun(ran, outline) {
    const refusal = /^refused (\w+) (\d+)\.\.(\d+)$/.exec(ran.text.trim());
    document.body.classList.toggle('refused', ran.status === 1);
    this.query.mark(refusal ? [{ from: Number(refusal[2]), to: Number(refusal[3]) }] : []);
    if (ran.status === 1) {
      const hasAnswers = this.items.told.length > 0;
      part('told').textContent = hasAnswers ? 'These are the answers of the last query that was accepted.' : 'A query that is refused has no answers.';
      return;
    }
    this.items.show(linesOf(ran.text), ran.places, outline.columns);
    this.chart.show(ran.drawn);
    part('time').textContent = `${this.items.told.length.toLocaleString('en')} answers in ${Math.max(Math.round(ran.millis), 1)} ms`;
    this.pointed = -1;
    this.report(-1);
  }

  explain(ran, explained, outline) {
    if (ran.status === 0) this.verdict.accept(explained, outline.hasKeys);
    else if (ran.status === 1) this.verdict.refuse(/^refused (\w+)/.exec(ran.text)[1], explained);
    else this.verdict.fail('The run ended early', STATUSES[ran.status] ?? `Its status is ${ran.status}.`);
  }

  fail(error) {
    const lacks = error instanceof WebAssembly.CompileError || error instanceof ReferenceError;
    if (lacks) this.verdict.fail('This browser does not run the program', `${LACKS} (${error.message})`);
    else this.verdict.fail('The page has failed', `This is no answer of the program: ${error.message}. The next run is by a new instance of it.`);
  }

  pointAt(line) {
    if (line === this.pointed) return;
    this.pointed = line;
    this.items.point(line);
    this.chart.point(line < 0 || this.items.answerAt(line) === undefined ? -1 : this.chart.indexOf(line));
    this.report(line);
  }

  pointAtIndex(index) {
    if (index < 0) this.pointAt(-1);
    else this.pointAtLine(this.chart.data.at[index]);
  }

  pointAtLine(line) {
    this.items.reach(line);
    this.pointAt(line);
  }

  // The whole of a line and its answer, which may be longer than their columns; or the latest answer.
  report(line) {
    const { told, lines } = this.items;
    if (line < 0) {
      part('told').textContent = told.length > 0 ? `The latest answer: ${told[told.length - 1]}` : 'There is no answer yet.';
      return;
    }
    const answer = this.items.answerAt(line) ?? 'no answer';
    const cause = this.items.causeOf(answer);
    part('told').textContent = `Line ${line + 1}: ${lines[line] ?? ''}  →  ${answer}${cause && ` (${cause})`}`;
  }

  show(query, items) {
    this.query.text = query;
    this.items.text = items;
    this.items.show([], [], []);
    this.chart.show({ at: [], series: [], left: 0 });
    part('time').textContent = '';
    this.await(0);
  }

  // Long items are unpacked first; meanwhile another example may be asked for.
  async showExample(name) {
    const example = EXAMPLES.find((it) => it.name === name) ?? EXAMPLES[0];
    this.wanted = example;
    const items = example.items ?? await unpackedText(example.packed);
    if (this.wanted !== example) return;
    this.show(example.query, items);
    this.example = part('menu').value = example.name;
  }

  async showAddress() {
    try {
      const { example, query, items } = await unpackedFrom(location.hash);
      if (query === undefined) {
        await this.showExample(example);
        return;
      }
      this.example = part('menu').value = '';
      this.show(query, items);
    } catch {
      this.showExample();
      this.notice('The link is broken, so an example is shown.');
    }
  }

  async addressOfNow() {
    return this.example ? `#example=${encodeURIComponent(this.example)}` : packedInto(this.query.text, this.items.text);
  }

  async keepAddress() {
    const turn = this.turn;
    const isLong = this.query.text.length + this.items.text.length > 20 * LONGEST_ADDRESS;
    const address = isLong ? '#' : await this.addressOfNow();
    if (turn !== this.turn) return;
    history.replaceState(null, '', address.length > LONGEST_ADDRESS ? '#' : address);
  }

  async share() {
    const address = await this.addressOfNow();
    history.replaceState(null, '', address);
    const size = location.href.length;
    const long = size > 8000 ? ` It has ${size.toLocaleString('en')} letters, which some programs cut.` : '';
    const copied = await navigator.clipboard?.writeText(location.href).then(() => true, () => false);
    this.notice((copied ? 'The link is copied.' : 'The link is in the address bar.') + long);
  }

  notice(text) {
    part('notice').textContent = text;
    clearTimeout(this.noticeTimer);
    this.noticeTimer = setTimeout(() => { part('notice').textContent = ''; }, 6000);
  }

  // A file that is dropped on the page is opened; else the browser would leave the page for it.
  drop(event) {
    if (!event.dataTransfer.types.includes('Files')) return;
    event.preventDefault();
    if (event.type === 'drop') this.openFile(event.dataTransfer.files[0]);
  }

  async openFile(file) {
    if (!file) return;
    const text = await file.slice(0, LONGEST_FILE).text();
    if (file.size > LONGEST_FILE) this.notice('Only the first 8 MB of the file are taken.');
    this.changeItemsTo(file.size > LONGEST_FILE ? text.slice(0, text.lastIndexOf('\n') + 1) : text);
    part('file').value = '';
  }
}

function fillMenu() {
  const groups = { 'Answered': [], 'Refused': [] };
  for (const example of EXAMPLES) groups[example.name.startsWith('refused') ? 'Refused' : 'Answered'].push(example);
  for (const [label, examples] of Object.entries(groups)) {
    const group = document.createElement('optgroup');
    group.label = label;
    for (const { name } of examples) group.append(new Option(name.replaceAll('_', ' '), name));
    part('menu').append(group);
  }
}

let page = null;

function begin() {
  fillMenu();
  page = new Page(new Background(unpackedModules(PACKED), part('background').textContent));
  page.showAddress();
}

begin();

'use strict';
// What is said of the query under its editor: what it may keep; or why it is refused, with the place under its line.

// An explanation cut into its parts: places, each with its line and the marks under it; sentences; and lines of items.
function partsOfExplanation(text) {
  const parts = [];
  const lines = linesOf(text);
  for (let at = 0; at < lines.length; at++) {
    const [, line, column, said] = /^query:(\d+):(\d+) \(the column in bytes\): (.*)$/.exec(lines[at]) ?? [];
    if (line) {
      parts.push({ place: { line, column, said }, code: lines[at + 1].slice(4), marks: lines[at + 2].slice(4) });
      at += 2;
    } else if (lines[at].startsWith('    ') && parts.at(-1)?.rows) {
      parts.at(-1).rows.push(lines[at].slice(4));
    } else if (lines[at].startsWith('    ')) {
      parts.push({ rows: [lines[at].slice(4)] });
    } else {
      parts.push({ sentence: lines[at] });
    }
  }
  return parts;
}

function shownPart({ place, code, marks, rows, sentence }) {
  if (place) return shownPlace(place, code, marks);
  if (rows) return rows[0] === READINGS ? shownReadings(rows.slice(1)) : element('pre', 'rows', rows.join('\n'));
  return element('p', '', sentence);
}

function shownPlace({ line, column, said }, code, marks) {
  const what = said.replace(/^refused \w+ \d+\.\.\d+$/, '');
  const head = element('p', 'place', `Line ${line}, column ${column}${what ? `: ${what}` : ''}`);
  const text = element('pre', 'code', `${code}\n`, element('span', 'marks', marks));
  return element('div', '', head, text);
}

// The items of a word with two readings, under this line; before each stands what reads it one way and another.
const READINGS = 'one way  another';

function shownReadings(rows) {
  const table = element('table', 'readings', element('thead', '', shownRow('th', ['one way', 'another', 'item'])));
  const body = element('tbody', '');
  for (const row of rows) {
    const cells = row.startsWith('(') ? ['', '', row] : [row.slice(0, 9).trim(), row.slice(9, 18).trim(), row.slice(18)];
    body.append(shownRow('td', cells));
  }
  table.append(body);
  return table;
}

function shownRow(name, cells) {
  return element('tr', '', ...cells.map((cell) => element(name, '', cell)));
}

function shownBound(bound, hasKeys) {
  const [, places, slots] = /^places (\d+) slots (\d+)$/.exec(bound.trim()) ?? [];
  if (!slots) return [];
  const counted = (count, name) => `${Number(count).toLocaleString('en')} ${name}${count === '1' ? '' : 's'}`;
  const kept = hasKeys ? `${counted(slots, 'slot')} for each key, and as much once more` : counted(slots, 'slot');
  return [element('p', '', `Whatever the items, a run keeps at most ${kept}, for at most ${counted(places, 'start')} at one time.`)];
}

class Verdict {
  constructor(pane) {
    this.pane = pane;
  }

  set(kind, title, ...parts) {
    this.pane.className = kind;
    this.pane.replaceChildren(element('h2', '', title), ...parts);
  }

  accept(explained, hasKeys) {
    this.set('good', 'Accepted', ...shownBound(explained.bound, hasKeys), ...partsOfExplanation(explained.explanation).map(shownPart));
  }

  refuse(rule, explained) {
    const parts = partsOfExplanation(explained.explanation).map(shownPart);
    const words = linesOf(explained.why);
    if (words.length > 1) {
      const what = element('summary', '', 'What the command why writes of it');
      parts.push(element('details', '', what, element('pre', 'rows', words.join('\n'))));
    }
    this.set('bad', `Refused: ${rule}`, ...parts);
  }

  fail(title, sentence) {
    this.set('bad', title, element('p', '', sentence));
  }
}

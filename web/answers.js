'use strict';
// Which line each answer belongs to, and the numbers in the answers.

// At most so many lines are drawn in a chart.
const MOST_SERIES = 6;

// The lines of a text: what stands after the last LF is one more, if it is not empty.
function linesOf(text) {
  const lines = text.split('\n');
  if (lines[lines.length - 1] === '') lines.pop();
  return lines;
}

// For each line the number of its answer, or -1: the header has none, and empty lines have none.
function placesOf(lines, hasHeader) {
  let next = 0;
  return Int32Array.from(lines, (line, at) => (hasHeader && at === 0) || line === '' || line === '\r' ? -1 : next++);
}

// A key as a person reads it: in an answer each byte beyond the plain ones is \x and two digits.
function spelled(key) {
  const bytes = key.replace(/\\x([0-9A-F]{2})/g, (_, digits) => String.fromCharCode(parseInt(digits, 16)));
  return new TextDecoder().decode(Uint8Array.from(bytes, (letter) => letter.charCodeAt(0)));
}

// The parts of an answer that have names: of a table its entries, of a record its values by their numbers, and of a number itself.
function* partsOf(answer) {
  const first = answer[0];
  if (first === '{') {
    for (const [, key, value] of answer.matchAll(/"([^"]*)":([^,}]*)/g)) yield [key, value];
  } else if (first === '(') {
    let number = 0;
    for (const value of answer.slice(1, -1).split(',')) yield [`part ${++number}`, value];
  } else {
    yield ['', answer];
  }
}

// What there is to draw: the lines that have an answer and are not skipped, and for each name its value there, or NaN.
function seriesOf(answers, places) {
  const at = [];
  const found = new Map();
  const left = new Set();
  places.forEach((place, line) => {
    const answer = answers[place];
    if (answer === undefined || answer.startsWith('skipped ')) return;
    for (const [name, text] of partsOf(answer)) {
      if (!/^-?[0-9]+$/.test(text)) continue;
      if (!found.has(name) && found.size === MOST_SERIES) left.add(name);
      else if (!found.has(name)) found.set(name, []);
      found.get(name)?.push([at.length, Number(text)]);
    }
    at.push(line);
  });
  const series = [...found].map(([name, points]) => {
    const values = new Float64Array(at.length).fill(NaN);
    for (const [index, value] of points) values[index] = value;
    return { name: spelled(name), values };
  });
  return { at: Int32Array.from(at), series, left: left.size };
}

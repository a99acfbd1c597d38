'use strict';
// The parts of a query text, by the grammar that editors use: each is a text, its place, and what kind of part it is.

const KINDS = GRAMMAR.patterns.map(({ name, match }) => ({ kind: name.split('.').slice(0, 2).join('-'), pattern: new RegExp(match, 'y') }));

function partsOfQuery(text) {
  const parts = [];
  let at = 0;
  let plain = 0;
  const endPlain = () => {
    if (plain < at) parts.push({ from: plain, to: at, kind: '' });
  };
  while (at < text.length) {
    const found = KINDS.find(({ pattern }) => {
      pattern.lastIndex = at;
      return pattern.test(text);
    });
    if (!found) {
      at += 1;
      continue;
    }
    endPlain();
    parts.push({ from: at, to: found.pattern.lastIndex, kind: found.kind });
    at = plain = found.pattern.lastIndex;
  }
  endPlain();
  return parts;
}

// The words and brackets of a query, without comments and blanks.
function wordsOfQuery(text) {
  return partsOfQuery(text).filter(({ kind }) => kind && !kind.startsWith('comment')).map(({ from, to }) => text.slice(from, to).trim());
}

// What the page reads of a query by itself: whether the first line is a header, the names of the columns, and whether it has keys.
function outlineOf(query) {
  const words = wordsOfQuery(query);
  const calls = (name) => words.flatMap((word, at) => (word === name && words[at + 1] === '(' ? [at] : []));
  const columns = calls('col').map((at) => words[at + 2]);
  return { hasHeader: words.slice(0, 3).join(' ') === 'stream ( header', columns, hasKeys: calls('collect').length > 0 };
}

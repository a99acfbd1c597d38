'use strict';
// What the page asks in the background, so that typing never waits for a run.

let modules = null;
const textOf = (bytes) => new TextDecoder('utf-8', { ignoreBOM: true }).decode(bytes);

// The answers to the items, or the refusal, and how long the run took.
function answer({ query, items, hasHeader }) {
  const begun = performance.now();
  const { status, bytes } = runProgram(modules.sqre, ['run', 'query', 'items'], { query, items });
  const millis = performance.now() - begun;
  const text = textOf(bytes);
  if (status === 1) return { status, text, millis };
  const places = placesOf(linesOf(items), hasHeader);
  return { status, text, millis, places, drawn: seriesOf(linesOf(text), places) };
}

// What else there is to say of the query: the words of the command `why`, or `bound` where it is accepted, and of the program that
// explains, which of an accepted query says nothing yet.
function explain({ query, isRefused }) {
  const said = (module, ...words) => textOf(runProgram(module, words, { query }).bytes);
  return {
    bound: isRefused ? '' : said(modules.sqre, 'bound', 'query'),
    why: isRefused ? said(modules.sqre, 'why', 'query') : '',
    explanation: said(modules.explain, 'query'),
  };
}

function call({ program, words, files }) {
  return runProgram(modules[program], words, files);
}

const COMMANDS = { answer, explain, call };

onmessage = ({ data }) => {
  if (data.modules) {
    modules = data.modules;
    return;
  }
  try {
    postMessage({ id: data.id, result: COMMANDS[data.command](data) });
  } catch (error) {
    postMessage({ id: data.id, fault: String(error) });
  }
};

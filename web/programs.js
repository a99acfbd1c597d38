'use strict';
// The two programs, as modules. Each run has an instance of its own, so that nothing of one stays for the next.

const coder = new TextEncoder();

// The system that a run sees: its words, the files that it is given by name, and what it writes.
class System {
  constructor(words, files) {
    this.words = words.map((word) => coder.encode(word));
    this.files = files;
    this.opened = new Map();
    this.written = [];
    this.memory = null;
  }

  // The memory grows while a run goes on, so a view of it serves once.
  bytes(place, count) {
    return new Uint8Array(this.memory.buffer, Number(place), Number(count));
  }

  imports() {
    const page = {
      open: (place, count) => this.open(new TextDecoder().decode(this.bytes(place, count))),
      read: (file, place, room) => this.read(file, place, room),
      write: (file, place, count) => this.write(place, count),
      word: (number, place, room) => this.word(Number(number), place, room),
    };
    return { page };
  }

  open(name) {
    const given = this.files[name];
    if (given === undefined) return -1;
    const file = this.opened.size + 3;
    this.opened.set(file, { bytes: typeof given === 'string' ? coder.encode(given) : given, at: 0 });
    return file;
  }

  // Standard input, which is no file here, has nothing.
  read(file, place, room) {
    const source = this.opened.get(file);
    if (!source) return 0n;
    const part = source.bytes.subarray(source.at, source.at + Number(room));
    this.bytes(place, part.length).set(part);
    source.at += part.length;
    return BigInt(part.length);
  }

  write(place, count) {
    this.written.push(this.bytes(place, count).slice());
    return count;
  }

  // The length of a word, -1 where there is none of that number, or -2 where there is no room for it.
  word(number, place, room) {
    const word = this.words[number];
    if (!word) return -1n;
    if (word.length > Number(room)) return -2n;
    this.bytes(place, word.length).set(word);
    return BigInt(word.length);
  }
}

// The status of a run of a module, and the bytes that it wrote.
function runProgram(module, words, files) {
  const system = new System(['program', ...words], files);
  const { exports } = new WebAssembly.Instance(module, system.imports());
  system.memory = exports.memory;
  const status = exports.run();
  return { status, bytes: joined(system.written) };
}

function joined(parts) {
  const whole = new Uint8Array(parts.reduce((count, part) => count + part.length, 0));
  let at = 0;
  for (const part of parts) {
    whole.set(part, at);
    at += part.length;
  }
  return whole;
}

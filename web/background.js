'use strict';
// The worker that runs the programs. Its answers come as promises; a newer question of the same kind ends an older one.

class Background {
  // The modules are promised: the worker begins before they are there.
  constructor(modules, code) {
    this.address = URL.createObjectURL(new Blob([code], { type: 'text/javascript' }));
    this.waiting = new Map();
    this.next = 0;
    this.modules = null;
    this.begin();
    this.ready = modules.then((compiled) => {
      this.modules = compiled;
      this.worker.postMessage({ modules: compiled });
    });
  }

  begin() {
    this.worker = new Worker(this.address);
    this.worker.onmessage = ({ data }) => this.settle(data);
    this.worker.onerror = (event) => this.failAll(event.message || 'the worker has ended');
    if (this.modules) this.worker.postMessage({ modules: this.modules });
  }

  ask(command, given) {
    const id = ++this.next;
    return new Promise((resolve, reject) => {
      this.waiting.set(id, { resolve, reject });
      const send = () => this.waiting.has(id) && this.worker.postMessage({ id, command, ...given });
      this.ready.then(send, reject);
    });
  }

  settle({ id, result, fault }) {
    const asked = this.waiting.get(id);
    this.waiting.delete(id);
    if (fault === undefined) {
      asked?.resolve(result);
      return;
    }
    asked?.reject(new Error(fault));
  }

  failAll(why) {
    const asked = [...this.waiting.values()];
    this.waiting.clear();
    for (const { reject } of asked) reject(new Error(why));
    this.worker.terminate();
    this.begin();
  }

  // Ends what runs, if anything does, so that what is asked next begins at once. Who asked for it hears nothing more.
  clear() {
    if (this.waiting.size === 0) return;
    this.waiting.clear();
    this.worker.terminate();
    this.begin();
  }
}

// The modules are packed and in base64.
async function unpackedModules(packed) {
  const unpack = async ([name, text]) => [name, await WebAssembly.compile(await inflated(bytesOfBase64(text), 'gzip'))];
  return Object.fromEntries(await Promise.all(Object.entries(packed).map(unpack)));
}

async function unpackedText(packed) {
  return new TextDecoder().decode(await inflated(bytesOfBase64(packed), 'gzip'));
}

function bytesOfBase64(text) {
  return Uint8Array.from(atob(text), (letter) => letter.charCodeAt(0));
}

async function piped(bytes, stream) {
  return new Uint8Array(await new Response(new Blob([bytes]).stream().pipeThrough(stream)).arrayBuffer());
}

function inflated(bytes, format) {
  return piped(bytes, new DecompressionStream(format));
}

function deflated(bytes, format) {
  return piped(bytes, new CompressionStream(format));
}

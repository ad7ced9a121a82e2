// sagas.mjs plans, checks, draws and audits sagas with the proved functions of sagas.wasm. It runs in Node.js (18 and later), Deno, Bun, browsers and
// edge runtimes.
//
//     import { load } from './sagas.mjs';
//     const sagas = await load();
//     const { status, text } = sagas.plan(definition, saga_case);
//
// `load()` reads sagas.wasm from the folder of this file. You can also pass the bytes of the module, or a WebAssembly.Module if your platform compiles
// the module itself (import module from './sagas.wasm'; await load(module)). A text is a string or a Uint8Array; docs/FORMATS.md describes the
// formats. `status` is the exit status of the program: OK (0), REJECTED (1) or INVALID (3). If it is INVALID, `text` is the line that the program
// prints on standard error. If memory runs out, a call throws a RangeError. Later calls work.
// Calls of the proved functions of the WebAssembly module: bytes in, a status and bytes out. The page and sagas.mjs both contain this file.

const OK = 0, REJECTED = 1, INVALID = 3, NO_MEMORY = 4, BUFFER_TOO_SMALL = 5;
const FIRST_SIZE = 65536;

// A view of the module's memory from an address. (Each use makes a new view, because the memory may have grown.)
const part = (library, at, size) => new Uint8Array(library.memory.buffer, Number(at), size);

// The address of this number of bytes, for one call.
function memory_of(library, size) {
  const at = library.sagas_memory(BigInt(size));
  if (at === 0n) throw new RangeError('no memory');
  return at;
}

// The arguments for a text: its address and its length.
function words_of(library, text) {
  if (text.length === 0) return [0n, 0n];
  const at = memory_of(library, text.length);
  part(library, at, text.length).set(text);
  return [at, BigInt(text.length)];
}

// The arguments for spans: the address and the number of pairs of offsets, 8 bytes for each offset.
function words_of_spans(library, spans) {
  if (spans.length === 0) return [0n, 0n];
  const at = memory_of(library, spans.length * 16);
  const view = new DataView(library.memory.buffer, Number(at), spans.length * 16);
  spans.flat().forEach((place, i) => view.setBigUint64(8 * i, BigInt(place), true));
  return [at, BigInt(spans.length)];
}

// Calls a function of the module, and returns its status and its bytes. After a trap, the instance cannot be used again.
function called(library, name, texts, spans) {
  library.sagas_clear();
  const words = texts.map(text => words_of(library, text)).flat();
  if (spans) words.push(...words_of_spans(library, spans));
  const used = memory_of(library, 8);
  const length = () => Number(new DataView(library.memory.buffer).getBigUint64(Number(used), true));
  let size = FIRST_SIZE, buffer = memory_of(library, size);
  let status = library[name](...words, buffer, BigInt(size), used);
  if (status === BUFFER_TOO_SMALL) {
    size = length();
    buffer = memory_of(library, size);
    status = library[name](...words, buffer, BigInt(size), used);
  }
  return { status, bytes: part(library, buffer, length()).slice() };
}

const bytes_of = text => new TextEncoder().encode(text);
const text_of = bytes => new TextDecoder('utf-8', { ignoreBOM: true }).decode(bytes);

const given = text => typeof text === 'string' ? bytes_of(text) : text;

class Sagas {
  #compiled;
  #library;

  constructor(compiled, instance) {
    this.#compiled = compiled;
    this.#library = instance.exports;
  }

  #ask(name, texts, spans) {
    let reply;
    try {
      reply = called(this.#library, name, texts.map(given), spans);
    } catch (error) {
      this.#library = new WebAssembly.Instance(this.#compiled, {}).exports;
      throw error instanceof WebAssembly.RuntimeError ? new RangeError(`${name}: ${error.message}`) : error;
    }
    if (reply.status === NO_MEMORY) throw new RangeError(`${name}: memory was refused`);
    return { status: reply.status, text: text_of(reply.bytes) };
  }

  // Plans how a saga ends, from the states of a case: OK with a minimum-cost plan, or REJECTED with a chain that shows that no outcome is feasible.
  plan(definition, saga_case) {
    return this.#ask('sagas_plan', [definition, saga_case]);
  }

  // Checks an answer from any source: OK with `least N` or `blocked`, or REJECTED with `no FAULT`.
  check(definition, saga_case, answer) {
    return this.#ask('sagas_check', [definition, saga_case, answer]);
  }

  // Audits a log with its definitions, in order: OK with counts, or REJECTED with the first event that was not allowed.
  audit(log, ...definitions) {
    const texts = definitions.map(given);
    const spans = [];
    let size = 0;
    for (const text of texts) spans.push([size, size += text.length]);
    const all = new Uint8Array(size);
    texts.forEach((text, i) => all.set(text, spans[i][0]));
    return this.#ask('sagas_audit_all', [log, all], spans);
  }

  // Draws a definition in Graphviz's language. The graph shows the states of a case and the marks of an answer if you pass them.
  draw(definition, saga_case, answer) {
    const texts = [definition, saga_case, answer].filter(text => text !== undefined);
    return this.#ask(['sagas_draw', 'sagas_draw_case', 'sagas_draw_answer'][texts.length - 1], texts);
  }
}

async function bytes_beside() {
  const place = new URL('./sagas.wasm', import.meta.url);
  if (place.protocol === 'file:') return (await import('node:fs/promises')).readFile(place);
  return (await fetch(place)).arrayBuffer();
}

export async function load(module) {
  const compiled = module instanceof WebAssembly.Module ? module : await WebAssembly.compile(module ?? await bytes_beside());
  return new Sagas(compiled, await WebAssembly.instantiate(compiled, {}));
}

export { OK, REJECTED, INVALID };

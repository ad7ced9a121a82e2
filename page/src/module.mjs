// sagas.mjs plans, checks, draws and audits sagas with the proved functions of sagas.wasm. It runs in Node.js (18 and later), Deno, Bun, browsers and
// edge runtimes.
//
//     import { load } from './sagas.mjs';
//     const sagas = await load();
//     const { status, text } = sagas.plan(definition, saga_case);
//
// `load()` reads sagas.wasm from the folder of this file. You can also pass the bytes of the module, or a WebAssembly.Module if your platform compiles
// the module itself (import module from './sagas.wasm'; await load(module)). A text is a string or a Uint8Array; docs/FORMATS.md describes the
// formats. `status` is the exit status of the program: OK (0), REJECTED (1) or INVALID (3). If it is INVALID, `text` is the line that the program
// prints on standard error. If memory runs out, a call throws a RangeError. Later calls work.
@CALLS@
const given = text => typeof text === 'string' ? bytes_of(text) : text;

class Sagas {
  #compiled;
  #library;

  constructor(compiled, instance) {
    this.#compiled = compiled;
    this.#library = instance.exports;
  }

  #ask(name, texts, spans) {
    let reply;
    try {
      reply = called(this.#library, name, texts.map(given), spans);
    } catch (error) {
      this.#library = new WebAssembly.Instance(this.#compiled, {}).exports;
      throw error instanceof WebAssembly.RuntimeError ? new RangeError(`${name}: ${error.message}`) : error;
    }
    if (reply.status === NO_MEMORY) throw new RangeError(`${name}: memory was refused`);
    return { status: reply.status, text: text_of(reply.bytes) };
  }

  // Plans how a saga ends, from the states of a case: OK with a minimum-cost plan, or REJECTED with a chain that shows that no outcome is feasible.
  plan(definition, saga_case) {
    return this.#ask('sagas_plan', [definition, saga_case]);
  }

  // Checks an answer from any source: OK with `least N` or `blocked`, or REJECTED with `no FAULT`.
  check(definition, saga_case, answer) {
    return this.#ask('sagas_check', [definition, saga_case, answer]);
  }

  // Audits a log with its definitions, in order: OK with counts, or REJECTED with the first event that was not allowed.
  audit(log, ...definitions) {
    const texts = definitions.map(given);
    const spans = [];
    let size = 0;
    for (const text of texts) spans.push([size, size += text.length]);
    const all = new Uint8Array(size);
    texts.forEach((text, i) => all.set(text, spans[i][0]));
    return this.#ask('sagas_audit_all', [log, all], spans);
  }

  // Draws a definition in Graphviz's language. The graph shows the states of a case and the marks of an answer if you pass them.
  draw(definition, saga_case, answer) {
    const texts = [definition, saga_case, answer].filter(text => text !== undefined);
    return this.#ask(['sagas_draw', 'sagas_draw_case', 'sagas_draw_answer'][texts.length - 1], texts);
  }
}

async function bytes_beside() {
  const place = new URL('./sagas.wasm', import.meta.url);
  if (place.protocol === 'file:') return (await import('node:fs/promises')).readFile(place);
  return (await fetch(place)).arrayBuffer();
}

export async function load(module) {
  const compiled = module instanceof WebAssembly.Module ? module : await WebAssembly.compile(module ?? await bytes_beside());
  return new Sagas(compiled, await WebAssembly.instantiate(compiled, {}));
}

export { OK, REJECTED, INVALID };

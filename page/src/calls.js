// Calls of the proved functions of the WebAssembly module: bytes in, a status and bytes out. The page and sagas.mjs both contain this file.

const OK = 0, REJECTED = 1, INVALID = 3, NO_MEMORY = 4, BUFFER_TOO_SMALL = 5;
const FIRST_SIZE = 65536;

// A view of the module's memory from an address. (Each use makes a new view, because the memory may have grown.)
const part = (library, at, size) => new Uint8Array(library.memory.buffer, Number(at), size);

// The address of this number of bytes, for one call.
function memory_of(library, size) {
  const at = library.sagas_memory(BigInt(size));
  if (at === 0n) throw new RangeError('no memory');
  return at;
}

// The arguments for a text: its address and its length.
function words_of(library, text) {
  if (text.length === 0) return [0n, 0n];
  const at = memory_of(library, text.length);
  part(library, at, text.length).set(text);
  return [at, BigInt(text.length)];
}

// The arguments for spans: the address and the number of pairs of offsets, 8 bytes for each offset.
function words_of_spans(library, spans) {
  if (spans.length === 0) return [0n, 0n];
  const at = memory_of(library, spans.length * 16);
  const view = new DataView(library.memory.buffer, Number(at), spans.length * 16);
  spans.flat().forEach((place, i) => view.setBigUint64(8 * i, BigInt(place), true));
  return [at, BigInt(spans.length)];
}

// Calls a function of the module, and returns its status and its bytes. After a trap, the instance cannot be used again.
function called(library, name, texts, spans) {
  library.sagas_clear();
  const words = texts.map(text => words_of(library, text)).flat();
  if (spans) words.push(...words_of_spans(library, spans));
  const used = memory_of(library, 8);
  const length = () => Number(new DataView(library.memory.buffer).getBigUint64(Number(used), true));
  let size = FIRST_SIZE, buffer = memory_of(library, size);
  let status = library[name](...words, buffer, BigInt(size), used);
  if (status === BUFFER_TOO_SMALL) {
    size = length();
    buffer = memory_of(library, size);
    status = library[name](...words, buffer, BigInt(size), used);
  }
  return { status, bytes: part(library, buffer, length()).slice() };
}

const bytes_of = text => new TextEncoder().encode(text);
const text_of = bytes => new TextDecoder('utf-8', { ignoreBOM: true }).decode(bytes);

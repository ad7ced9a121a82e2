// The WebAssembly module in the page.

let compiled, library;

async function load() {
  const letters = atob(MODULE);
  const bytes = Uint8Array.from(letters, letter => letter.charCodeAt(0));
  compiled = await WebAssembly.compile(bytes);
  await renew();
}

async function renew() {
  library = (await WebAssembly.instantiate(compiled, {})).exports;
}

// Calls a function. After a trap, the instance cannot be used again, so a new one replaces it.
async function call(name, texts, spans) {
  try {
    return called(library, 'sagas_' + name, texts, spans);
  } catch (error) {
    await renew();
    return { status: NO_MEMORY, bytes: new Uint8Array(), error: String(error) };
  }
}

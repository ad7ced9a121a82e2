// The planner in process, for Node, Deno, Bun and browsers: the module of WebAssembly, which pack.mjs puts beside this file.

export { INVALID, OK, REJECTED, load } from "./wasm/sagas.mjs";

// Puts the module of WebAssembly into the package: it is made by page/make, and stored in dist/ alone.

import { copyFileSync, mkdirSync } from "node:fs";

const [from, to] = ["../../dist/", "./wasm/"].map((place) => new URL(place, import.meta.url));
mkdirSync(to, { recursive: true });
for (const name of ["sagas.mjs", "sagas.wasm"]) copyFileSync(new URL(name, from), new URL(name, to));
copyFileSync(new URL("../../LICENSE", import.meta.url), new URL("./LICENSE", import.meta.url));

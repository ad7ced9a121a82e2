// Values that the service answers as they are stored: encoded by its codec, or references into its blob store.

import { CannotDecode, InvalidArgument } from "./errors.js";
import { parse } from "./json.js";

const text = (bytes) => new TextDecoder("utf-8", { fatal: true, ignoreBOM: true }).decode(bytes);
const has = (value, ...names) => {
  const keys = value !== null && typeof value === "object" && !Array.isArray(value) ? Object.keys(value) : [];
  return keys.length === names.length && names.every((name) => keys.includes(name));
};

// What one of the caller's functions gives; the text of what it throws may have the value.
async function given(what, call) {
  try {
    return await call();
  } catch (error) {
    throw new CannotDecode(`${what} threw ${error?.name ?? typeof error}`);
  }
}

export class Values {
  #codec;
  #blobs;

  constructor(codec, blobs) {
    if (codec !== undefined && typeof codec?.decode !== "function") throw new InvalidArgument("codec: it has a function decode, of bytes to bytes");
    if (blobs !== undefined && typeof blobs?.get !== "function") throw new InvalidArgument("blobs: it has a function get, of a key to bytes");
    this.#codec = codec;
    this.#blobs = blobs;
  }

  /** What the service says of a saga, with its values. */
  async saga(saga) {
    if (!this.#codec && !this.#blobs) return saga;
    const results = await Promise.all(Object.entries(saga.results).map(async ([step, value]) => [step, await this.read(value)]));
    return { ...saga, input: await this.read(saga.input), results: Object.fromEntries(results) };
  }

  async read(value) {
    let found = value;
    if (this.#blobs && has(found, "$blob", "bytes", "digest")) {
      const bytes = await given("the blob store", () => this.#blobs.get(value.$blob));
      if (bytes === undefined || bytes === null) throw new CannotDecode("the value is not in the blob store");
      found = await given("reading the blob", () => parse(text(bytes)));
      if (has(found, "$plain")) return found.$plain;
    }
    if (!this.#codec || !has(found, "$codec")) return found;
    const bytes = Buffer.from(found.$codec, "base64");
    return given("the codec", async () => parse(text(await this.#codec.decode(bytes))));
  }
}

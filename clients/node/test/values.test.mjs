// Values that a service answers as they are stored: a codec and a blob store read them.

import assert from "node:assert/strict";
import { createServer } from "node:http";
import { after, test } from "node:test";
import { CannotDecode, Client } from "../index.js";

const reverse = (data) => Uint8Array.from(data).reverse();
const coded = (text) => ({ $codec: Buffer.from(reverse(Buffer.from(text))).toString("base64") });
const blob = (key) => ({ $blob: key, bytes: 1, digest: "0".repeat(64) });
const codec = { decode: async (data) => reverse(data) };
const there = {
  "a/1/1": JSON.stringify(coded('"large"')), "a/1/2": "[12345678901234567890]", "a/1/3": '{"$plain":{"$codec":"AAAA"}}',
};
const blobs = {
  get(key) {
    if (key === "a/1/9") throw new Error("s3cret");
    return there[key] === undefined ? undefined : Buffer.from(there[key]);
  },
};
const saga = { key: "k", over: true, waits: [], input: coded('{"card":7}'), results: { a: coded("null"), b: [1], c: "text" } };
let answered = saga;
const server = createServer((_, answer) => {
  answer.setHeader("content-type", "application/json");
  answer.end(JSON.stringify(answered));
}).listen(0, "127.0.0.1");
await new Promise((resolve) => server.once("listening", resolve));
after(() => server.close());
const url = `http://127.0.0.1:${server.address().port}`;

async function read(options, values) {
  answered = values ? { ...saga, input: null, results: values } : saga;
  const client = new Client(url, options);
  try {
    return await client.wait("k");
  } finally {
    client.close();
  }
}

test("without a codec they are as they are stored", async () => {
  assert.deepEqual((await read({})).input, saga.input);
});

test("a codec decodes inputs and results", async () => {
  const { input, results } = await read({ codec });
  assert.deepEqual([input, results], [{ card: 7 }, { a: null, b: [1], c: "text" }]);
});

test("a blob store gives large ones, which a codec may have made", async () => {
  const values = { x: blob("a/1/1"), y: blob("a/1/2"), z: blob("a/1/3") };
  assert.deepEqual((await read({ codec, blobs }, values)).results, { x: "large", y: [12345678901234567890n], z: { $codec: "AAAA" } });
  assert.deepEqual((await read({ blobs }, { x: blob("a/1/1") })).results.x, coded('"large"'));
});

for (const [what, options, value] of [
  ["a value that is missing", { blobs }, blob("a/1/7")],
  ["a blob store that fails", { blobs }, blob("a/1/9")],
  ["a codec that fails", { codec: { decode() { throw new TypeError("s3cret"); } } }, coded("1")],
  ["a codec that gives no JSON", { codec: { decode: () => Buffer.from("s3cret") } }, coded("1")],
]) {
  test(`${what} is reported without the value`, async () => {
    await assert.rejects(read(options, { a: value }), (error) => error instanceof CannotDecode && !/s3cr/.test(error.message));
  });
}

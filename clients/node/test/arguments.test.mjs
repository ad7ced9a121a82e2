// What is refused before anything is sent, and what the package exports.

import assert from "node:assert/strict";
import { readFileSync } from "node:fs";
import { test } from "node:test";
import * as sagas from "../index.js";

const { Client, InvalidArgument, Worker } = sagas;
const client = new Client("http://127.0.0.1:1", { timeout: 0.01 });

for (const [what, call] of Object.entries({
  "a token of a file, with its line break": () => new Client("http://a", { token: "sagas_s3cret\n" }),
  "a worker's token": () => new Worker("http://a", { token: "sagas_s3crét" }),
  "a codec that cannot decode": () => new Client("http://a", { codec: {} }),
  "a blob store that gives nothing": () => new Client("http://a", { blobs: { put() {} } }),
  "an address without a scheme": () => new Client("app:s3cret@a:8080"),
  "an address with a password": () => new Client("http://app:s3cret@a:8080"),
  "an address with a port that is none": () => new Client("http://app:s3cret@a:99999"),
  "an address with a blank": () => new Worker("http://a b"),
  "an address with half a bracket": () => new Client(["http://a", "http://[::1"]),
  "a key with half a character": () => client.get("a\ud83d"),
  "a step with half a character": () => client.complete("a", "b\udc00"),
  "half a function at once": () => new Worker("http://a", { concurrency: 2.5 }),
  "the id of an event with a line break": () => client.events({ lastEventId: "b-1\nx: y" }),
})) {
  test(`${what} is refused`, async () => {
    await assert.rejects(async () => call(), (error) => error instanceof InvalidArgument && !/s3cr/.test(error.message));
  });
}

test("the types name what there is", () => {
  const types = readFileSync(new URL("../index.d.ts", import.meta.url), "utf8");
  const named = [...types.matchAll(/^export (?:declare )?(?:abstract )?(?:class|const|function|enum) (\w+)/gm)].map(([, name]) => name);
  assert.deepEqual(named.sort(), Object.keys(sagas).sort());
});

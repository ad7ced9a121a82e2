// A function throws a value without a text: its outcome is unknown, and the worker continues.

import assert from "node:assert/strict";
import { test } from "node:test";
import { Fail } from "../index.js";
import { outcomeOf } from "../lib/task.js";

const circle = new Error("a");
circle.cause = new Error("b", { cause: circle });
const bare = Object.create(null);
const silent = Object.defineProperty(new Error(), "message", { get() { throw new TypeError("no"); } });
const revoked = Proxy.revocable({}, {});
revoked.revoke();

async function outcome(run) {
  const said = [];
  const { verb, fields } = await outcomeOf(run, { attemptId: "x" }, { warn: (text) => said.push(text) });
  return { verb, said, ...JSON.parse(`{${fields}}`) };
}

for (const [what, thrown, text] of [
  ["a circle of causes", circle, /^Error: a: Error: b: Error: a/],
  ["an object without a prototype", bare, /cannot be described/],
  ["such a cause", new Error("x", { cause: bare }), /^Error: x: .*cannot be described$/],
  ["a cause that throws", new Error("x", { cause: { toString() { throw bare; } } }), /^Error: x: .*cannot be described$/],
  ["an error whose message throws", silent, /cannot be described/],
  ["an error whose message is a symbol", Object.assign(new Error(), { message: Symbol("x") }), /cannot be described/],
  ["a proxy that is revoked", revoked.proxy, /cannot be described/],
  ["nothing", undefined, /^undefined$/],
]) {
  test(`a function throws ${what}`, async () => {
    const { verb, error } = await outcome(() => { throw thrown; });
    assert.equal(verb, "unknown");
    assert.match(error, text);
  });
}

test("a failure says its message, which is any value, and its cause", async () => {
  const failed = await outcome(() => { throw Object.assign(new Fail("x", { cause: bare }), { message: 42 }); });
  assert.deepEqual([failed.verb, failed.final], ["fail", true]);
  assert.match(failed.error, /^42: .*cannot be described$/);
});

test("a result that says nothing of why it cannot be written is done all the same", async () => {
  const { verb, result, said } = await outcome(() => ({ toJSON() { throw silent; } }));
  assert.equal(verb, "complete");
  assert.ok(result.unstorable && said.length === 1);
});

test("a bug says its line, and waits for a retry; data that is not JSON does not", async () => {
  const bug = await outcome(() => carier.ship()); // eslint-disable-line no-undef
  assert.deepEqual([bug.verb, bug.program_error], ["unknown", true]);
  assert.match(bug.error, /^ReferenceError: carier is not defined \(.*task\.test\.mjs:\d+:\d+\)?/);
  const missing = await outcome(() => import("./there-is-no-such-module.mjs"));
  assert.deepEqual([missing.verb, missing.program_error], ["unknown", true]);
  const data = await outcome(() => JSON.parse("<html>"));
  assert.deepEqual([data.verb, data.program_error], ["unknown", undefined]);
});

// A worker at services that answer late, or something else: how its stop ends a claim, and how it repeats a report.

import assert from "node:assert/strict";
import { once } from "node:events";
import http from "node:http";
import { test } from "node:test";
import { setTimeout as pause } from "node:timers/promises";
import { Worker } from "../index.js";

const NONE = { tasks: [], unknown_steps: [], heartbeat_seconds: 10, repeat_statuses: [] };
const TASK = {
  name: "s/a", attempt_id: "t-1", lease: "1.c0ffee", seconds: 30, definition: "s", key: "k", step: "a", undo: false, attempt: 1,
  input: null, results: {}, result: null, idempotency_key: "i", original_idempotency_key: null, traceparent: null, deadline: null,
};
const gives = (value, status = 200) => (answer) => answer.writableEnded || answer.writeHead(status).end(JSON.stringify(value));
const breaks = (answer) => answer.destroy();
const silent = () => {};

// A service: `says(word, answer, count)` answers a request by the last word of its path, and the count of those.
async function serving(t, says) {
  const requests = [];
  const heard = (word) => requests.filter((one) => one.word === word);
  const server = http.createServer(async (request, answer) => {
    let body = "";
    for await (const part of request) body += part;
    const word = request.url.slice(request.url.lastIndexOf("/") + 1);
    const { authorization } = request.headers;
    requests.push({ word, authorization, at: performance.now(), ...JSON.parse(body) });
    says(word, answer, heard(word).length);
  });
  await once(server.listen(0, "127.0.0.1"), "listening");
  t.after(() => { server.close(); server.closeAllConnections(); });
  return { url: `http://127.0.0.1:${server.address().port}`, heard };
}

function working(url, run = () => null, options = {}) {
  const warnings = [];
  const { random } = Math;
  Math.random = () => 0; // it begins with the first service
  const worker = new Worker(url, { token: "secret", name: "w", logger: { warn: (text) => warnings.push(text) }, ...options }).step("s", "a", run);
  Math.random = random;
  return { worker, warnings };
}

// A stop while a claim waits. The requests that end it hear these one after the other; then the claim brings a task.
// Gives when they came, in milliseconds after the stop.
async function stopping(t, ...says) {
  let claim;
  let stopped;
  const { url, heard } = await serving(t, (word, answer, count) => {
    if (word === "end") return says[Math.min(count, says.length) - 1](answer, () => gives({ ...NONE, tasks: [TASK] })(claim));
    if (word === "heartbeat") return gives({ cancelled: null })(answer);
    if (count === 1) return gives(NONE)(answer);
    claim = answer;
    stopped = performance.now();
    worker.stop();
  });
  const { worker, warnings } = working([url, "http://127.0.0.1:1"], () => assert.fail("it begins"));
  await worker.run();
  assert.deepEqual([worker.url, warnings], [url, []]);
  const [, claimed] = heard("claim");
  assert.equal(claimed.wait, 20);
  for (const one of heard("end")) assert.deepEqual([one.worker, one.authorization], [claimed.worker, claimed.authorization]);
  assert.deepEqual(heard("heartbeat").map(({ lease, seconds }) => [lease, seconds]), [[TASK.lease, 0.5]]); // it is given back
  return heard("end").map(({ at }) => at - stopped);
}

const ends = (answer, bring) => { gives({ ended: 1 })(answer); bring(); };

test("a stop ends the claim that waits", { timeout: 60_000 }, async (t) => {
  assert.ok((await stopping(t, ends)).length);
});

test("the request that ends a claim is repeated", { concurrency: true, timeout: 60_000 }, async (t) => {
  await Promise.all(Object.entries({
    "it finds none": gives({ ended: 0 }), "the service is busy": gives({}, 503), "the line breaks": breaks, "there is no answer": silent,
  }).map(([what, say]) => t.test(`if ${what}`, async (t) => {
    const [, second] = await stopping(t, say, ends);
    assert.ok(second > 990); // there is a pause
  })));
});

test("it is not repeated at a service that has no such request", { concurrency: true, timeout: 60_000 }, async (t) => {
  await Promise.all([404, 405].map((status) => t.test(`${status}`, async (t) => {
    const refuses = async (answer, bring) => { gives({}, status)(answer); await pause(1500); bring(); };
    assert.equal((await stopping(t, refuses)).length, 1);
  })));
});

test("it goes to the service that has the claim, though the worker has turned to another one", { timeout: 60_000 }, async (t) => {
  let claim;
  let done;
  const other = await serving(t, (word, answer) => gives(word === "heartbeat" ? { cancelled: null } : { kept: true, next: null })(answer));
  const isTurned = () => claim && worker.url === other.url;
  const { url, heard } = await serving(t, (word, answer, count) => {
    if (word === "claim" && count === 1) return gives({ ...NONE, tasks: [TASK], heartbeat_seconds: 0.05 })(answer);
    if (word === "claim") return (claim = answer);
    if (word === "heartbeat") return gives({}, claim ? 503 : 200)(answer);
    gives({ ended: 1 })(answer);
    gives(NONE)(claim);
  });
  const { worker } = working([url, other.url], () => new Promise((resolve) => { done = resolve; }), { concurrency: 2 });
  const run = worker.run();
  while (!isTurned()) await pause(10);
  worker.stop();
  done();
  await run;
  assert.ok(heard("end").length);
  assert.deepEqual([other.heard("end").length, other.heard("complete").length], [0, 1]);
});

test("a report that takes longer than a try gets through, and a stop ends no claim where there is none", { timeout: 60_000 }, async (t) => {
  const { url, heard } = await serving(t, async (word, answer, count) => {
    if (word === "claim") return gives({ ...NONE, tasks: [TASK] })(answer);
    if (count < 6) await pause(1200);
    gives({ kept: true, next: null })(answer);
  });
  const { worker, warnings } = working(url, () => worker.stop(), { concurrency: 1, lease: 0.5 });
  await worker.run();
  assert.ok(heard("complete").length < 6); // the second try is longer
  assert.match(warnings.join(), /no answer within 1 s/);
  assert.equal(heard("end").length, 0);
});

test("workers begin with any of their services", () => {
  const urls = ["http://127.0.0.1:1", "http://127.0.0.1:2", "http://127.0.0.1:3"];
  const first = new Set();
  for (let count = 0; count < 1000 && first.size < urls.length; count += 1) first.add(new Worker(urls).url);
  assert.deepEqual([...first].sort(), urls);
});

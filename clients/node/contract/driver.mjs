// The driver of the contract suite: commands as lines of JSON. See clients/contract/README.md.

import { once } from "node:events";
import { connect } from "node:net";
import { createInterface } from "node:readline";
import { parse, write } from "../lib/json.js";
import { Aborted, Client, Fail, InvalidArgument, Problem, Retry, Unknown, Unreachable, WaitTimeout, Worker } from "../index.js";

let client;
let events;
let following = Promise.resolve();
const workers = new Map();
const counts = new Map();
const released = new Map(); // of "key step": a promise and what resolves it

const say = (reply) => process.stdout.write(`${write(reply)}\n`);

function nameOf(error) {
  if (error instanceof Problem) return error.problem;
  if (error instanceof WaitTimeout) return "Timeout";
  if (error instanceof Unreachable) return "Unreachable";
  if (error instanceof InvalidArgument) return "InvalidArgument";
  return error?.name === "AbortError" ? "Canceled" : "Other";
}

const errorOf = (error) => ({ name: nameOf(error), status: error.status ?? 0, text: String(error.message) });

const sagaOf = ({ key, definition, version, phase, over, aborted, input, states, results, errors }) =>
  ({ key, definition, version, phase, over, aborted, input, states, results, errors });

function release(word) {
  if (!released.has(word)) {
    let go;
    const gone = new Promise((resolve) => { go = resolve; });
    released.set(word, { gone, go });
  }
  return released.get(word);
}

async function hold(worker, task, { isDeaf = false, fault = new Fail("no") } = {}) {
  const { gone } = release(`${task.key} ${task.step}`);
  const canceled = new Promise((resolve) => task.signal.addEventListener("abort", () => resolve(task.signal.reason)));
  const why = await (isDeaf ? gone : Promise.race([gone, canceled]));
  if (why === undefined) return;
  say({ note: "canceled", worker, key: task.key, step: task.step, why: why instanceof Aborted ? "abort" : "lease" });
  throw fault;
}

const ok = (task) => ({ done: `${task.step}${task.isCompensation ? "/undo" : ""}` });

const WORDS = {
  ok: (_, task) => ok(task),
  echo: (_, task) => (task.input?.script ? task.input.value : task.input),
  nothing: () => undefined,
  fail: () => { throw new Fail("no"); },
  retry: () => { throw new Retry("not yet"); },
  unknown: () => { throw new Unknown("who knows"); },
  throw: () => { throw new TypeError("a bug"); },
  timeout: () => new Promise((_, reject) => {
    const signal = AbortSignal.timeout(10);
    signal.addEventListener("abort", () => reject(signal.reason));
  }),
  refused: () => fetch("http://127.0.0.1:9"),
  hold: async (worker, task) => { await hold(worker, task); return ok(task); },
  deaf: async (worker, task) => { await hold(worker, task, { isDeaf: true }); return ok(task); },
  doubt: async (worker, task) => { await hold(worker, task, { fault: new Unknown("who knows") }); return ok(task); },
  big: () => ({ text: "x".repeat(1_000_000) }),
  huge: () => ({ text: "x".repeat(3_000_000) }),
};

function play(worker, quiet) {
  return (task) => {
    const { name, key, step, isCompensation: undo, attempt, idempotencyKey: idempotency_key, results, result, input, traceparent } = task;
    const { declaredStep: declared_step, index, itemKey: item_key, item, given } = task;
    if (!quiet) say({ note: "called", worker, name, key, step, undo, attempt, idempotency_key, results, result, traceparent, declared_step, index, item_key, item, given });
    const script = input?.script;
    if (!script) return WORDS.echo(worker, task);
    const place = undo ? `${step}/undo` : step;
    const words = script[place] ?? ["ok"];
    const count = counts.get(`${key} ${place}`) ?? 0;
    counts.set(`${key} ${place}`, count + 1);
    return WORDS[words[Math.min(count, words.length - 1)]](worker, task);
  };
}

// A function that does what a program at a socket says.
function actAt(path) {
  return async (task) => {
    const socket = connect(path);
    try {
      const { definition: saga, key, step, isCompensation: undo, attempt, attemptId: attempt_id, input, results, result } = task;
      const call = { saga, key, step, undo, attempt, attempt_id, input, results, result };
      await once(socket, "connect");
      socket.write(`${write({ ...call, idempotency_key: task.idempotencyKey, original_idempotency_key: task.originalIdempotencyKey })}\n`);
      let line = "";
      for await (const part of socket) if ((line += part).endsWith("\n")) break;
      const { do: word, value } = parse(line);
      return word === "ok" ? value : WORDS[word]();
    } finally {
      socket.destroy();
    }
  };
}

async function follow(stream) {
  for await (const event of stream) {
    if (event.name === "missed") say({ note: "missed" });
    else say({ note: "event", event });
  }
}

const COMMANDS = {
  open: ({ url, token }) => { client = new Client(url, { token: token ?? undefined }); return { language: "node" }; },
  start: async ({ definition, key, input, labels, deadline, version, traceparent }) => {
    const run = await client.start(definition, key, input, { labels, deadline, version, traceparent });
    return { key: run.key, version: run.version, new: run.new };
  },
  get: async ({ key }) => {
    const saga = await client.get(key);
    if (saga === null) throw new Problem(404, "NoSuchSaga", "no saga has this key");
    return sagaOf(saga);
  },
  wait: async ({ key, timeout }) => sagaOf(await client.wait(key, { timeout })),
  abort: async ({ key, note }) => ({ aborted: await client.abort(key, { note }) }),
  complete: async ({ key, step, result, undo, note }) => { await client.complete(key, step, result, { undo, note }); return {}; },
  fail: async ({ key, step, error, undo, note }) => { await client.fail(key, step, error, { undo, note }); return {}; },
  list: async ({ page, phase, definition, search, labels }) => {
    const sagas = [];
    for await (const saga of client.list({ pageSize: page, phase, definition, search, labels })) sagas.push(saga);
    return { keys: sagas.map(({ key }) => key), versions: sagas.map(({ version }) => version) };
  },
  decisions: async ({ page, key, definition, decision }) => {
    const decisions = [];
    for await (const { at, isBulk, ...entry } of client.decisions({ pageSize: page, key, definition, decision })) {
      decisions.push({ ...entry, bulk: isBulk, at: at.getTime() > 0 });
    }
    return { decisions };
  },
  events: async ({ key, definition }) => {
    events = client.events({ key, definition });
    await events.open();
    following = follow(events);
    return {};
  },
  events_stop: async () => { events.close(); await following; return {}; },
  worker: ({ worker: name, url, token, steps, concurrency, lease, wait, quiet, act }) => {
    const logger = { warn: (text) => process.stderr.write(`${name}: ${text}\n`) };
    const one = new Worker(url, { token: token ?? undefined, concurrency, lease, wait, name, logger });
    for (const step of steps) {
      const [, saga, of, undo] = step.match(/^([^/]+)\/(.+?)(\/undo)?$/);
      one[undo ? "compensation" : "step"](saga, of, act ? actAt(act) : play(name, quiet));
    }
    const ended = one.run();
    const tell = (error) => { if (workers.delete(name)) say({ note: "worker_ended", worker: name, error }); };
    ended.then(() => tell(null), (error) => tell(errorOf(error)));
    workers.set(name, { one, ended });
    return {};
  },
  stop: async ({ worker: name }) => {
    const { one, ended } = workers.get(name);
    workers.delete(name);
    one.stop();
    await ended;
    return {};
  },
  release: ({ key, step }) => { release(`${key} ${step}`).go(); return {}; },
};

async function carryOut({ id, do: word, ...words }) {
  try {
    say({ id, value: await COMMANDS[word](words) });
  } catch (error) {
    say({ id, error: errorOf(error) });
  }
}

for await (const line of createInterface({ input: process.stdin })) {
  const command = parse(line);
  if (command.do === "end") {
    say({ id: command.id, value: {} });
    break;
  }
  carryOut(command);
}
process.stdout.end(() => process.exit(0));

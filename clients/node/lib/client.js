// A caller of the service: it starts sagas, waits for them, and decides steps.

import { Connection } from "./connection.js";
import { InvalidArgument, NoSuchSaga, WaitTimeout } from "./errors.js";
import { EventStream } from "./events.js";
import { write } from "./json.js";
import { Values } from "./values.js";
import { decisionOf, sagaOf, summaryOf } from "./views.js";

const PATIENCE = 60; // seconds
const ANSWER = 20; // seconds that one request may take
const MOST_WAIT = 30; // seconds that the service keeps one request
const BEYOND = 15; // seconds that an answer may take beyond that
const LATE = 10;

const name = (what, value) => {
  if (typeof value !== "string" || !value) throw new InvalidArgument(`${what}: must be a string that is not empty`);
  if (/\p{Surrogate}/u.test(value)) throw new InvalidArgument(`${what}: it has half of a character`);
  return value;
};
const path = (key, ...rest) => ["v1/sagas", name("key", key), ...rest].map((part, i) => (i ? encodeURIComponent(part) : part)).join("/");
const TRACEPARENT = /^[0-9a-f]{2}-(?!0{32})[0-9a-f]{32}-(?!0{16})[0-9a-f]{16}-[0-9a-f]{2}$/;
const traced = (value) => {
  if (value === undefined) return {};
  if (!TRACEPARENT.test(value) || value.startsWith("ff")) throw new InvalidArgument("traceparent: it is a W3C trace context");
  return { traceparent: value };
};
const seconds = (value) => (value instanceof Date ? value.toISOString() : value);

/** A saga that this program started, or found. */
export class Run {
  #client;

  constructor(client, { key, definition, version, new: isNew }) {
    this.#client = client;
    Object.assign(this, { key, definition, version, new: isNew });
  }

  wait(options) {
    return this.#client.wait(this.key, options);
  }

  get() {
    return this.#client.get(this.key);
  }

  abort(options) {
    return this.#client.abort(this.key, options);
  }
}

export class Client {
  #connection;
  #timeout;
  #values;

  constructor(url, { token, timeout = PATIENCE, codec, blobs } = {}) {
    if (!(timeout > 0)) throw new InvalidArgument("timeout: must be a number of seconds above 0");
    this.#values = new Values(codec, blobs);
    this.#connection = new Connection(url, token);
    this.#timeout = timeout;
  }

  get url() {
    return this.#connection.url.href.replace(/\/$/, "");
  }

  close() {
    this.#connection.close();
  }

  async start(definition, key, input = null, { labels, deadline, version, traceparent, signal } = {}) {
    const body = write({ definition: name("definition", definition), key: name("key", key), input, labels, deadline, version });
    return new Run(this, await this.#ask("POST", "v1/sagas", { body, signal, headers: traced(traceparent) }));
  }

  async get(key, { signal } = {}) {
    try {
      return sagaOf(await this.#values.saga(await this.#ask("GET", path(key), { signal })));
    } catch (error) {
      if (error instanceof NoSuchSaga) return null;
      throw error;
    }
  }

  async wait(key, { timeout = Infinity, signal } = {}) {
    const until = performance.now() + 1000 * timeout;
    for (;;) {
      const left = Math.max(0, (until - performance.now()) / 1000);
      const wait = Math.min(MOST_WAIT, left);
      const saga = await this.#ask("GET", `${path(key)}/wait?seconds=${wait.toFixed(3)}`, {
        signal, seconds: wait + BEYOND, patience: Math.max(LATE, Math.min(left, this.#timeout)) + wait,
      });
      if (saga.over) return sagaOf(await this.#values.saga(saga));
      if (performance.now() >= until) {
        const waits = saga.waits.map(({ step, why }) => (step === null ? why : `${step} (${why})`)).join(", ");
        throw new WaitTimeout(`'${key}' is still open after ${timeout} s${waits && `: it waits for ${waits}`}`);
      }
    }
  }

  async abort(key, { note, signal } = {}) {
    const { aborted } = await this.#ask("POST", path(key, "abort"), { body: write({ note }), signal });
    return aborted;
  }

  async complete(key, step, result = null, { undo = false, early, note, signal } = {}) {
    await this.#ask("POST", path(key, "steps", name("step", step), "complete"), { body: write({ result, undo, early, note }), signal });
  }

  async fail(key, step, error, { undo = false, early, note, signal } = {}) {
    const body = write({ error: name("error", error), undo, early, note });
    await this.#ask("POST", path(key, "steps", name("step", step), "fail"), { body, signal });
  }

  async *list({ pageSize = 100, phase, definition, search, labels = {}, startedAfter, startedBefore, error, signal } = {}) {
    const query = new URLSearchParams();
    const words = {
      limit: pageSize, phase, definition, search, error, started_after: seconds(startedAfter), started_before: seconds(startedBefore),
    };
    for (const [word, value] of Object.entries(words)) if (value !== undefined) query.set(word, value);
    for (const [label, value] of Object.entries(labels)) query.append("label", `${label}=${value}`);
    for await (const page of this.#pages("v1/sagas", query, signal)) yield* page.sagas.map(summaryOf);
  }

  async *decisions({ pageSize = 100, key, definition, decision, signal } = {}) {
    const query = new URLSearchParams();
    for (const [word, value] of Object.entries({ limit: pageSize, key, definition, decision })) if (value !== undefined) query.set(word, value);
    for await (const page of this.#pages("v1/decisions", query, signal)) yield* page.decisions.map(decisionOf);
  }

  async *#pages(path, query, signal) {
    for (;;) {
      const page = await this.#ask("GET", `${path}?${query}`, { signal });
      yield page;
      if (page.next === null) return;
      query.set("after", page.next);
    }
  }

  events(filter = {}) {
    return new EventStream(this.#connection, filter, this.#timeout);
  }

  async #ask(method, path, { body, headers, signal, seconds = Math.min(ANSWER, this.#timeout), patience = this.#timeout }) {
    return (await this.#connection.untilAnswered(method, path, { body, headers, seconds, patience, signal })).value;
  }
}

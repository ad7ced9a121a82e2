// A task that a worker has claimed, and the outcome of its function.

import { Aborted, Fail, InvalidArgument, LeaseLost, Retry, problemOf } from "./errors.js";
import { write } from "./json.js";

const MOST_TEXT = 4000; // characters of an error
const MOST_DETAIL = 200;
const MOST_CAUSES = 10; // of an error, one behind the other

/** A text of at most so many characters, without halves of characters. */
export function shortened(text, most = MOST_TEXT) {
  const whole = text.length > most ? [...text.slice(0, 2 * most)].slice(0, most).join("") : text;
  return whole.replace(/\p{Surrogate}/gu, "\ufffd");
}

export class Task {
  #cancelled = new AbortController();
  #news = null;
  #isLost = false;

  constructor(leased, heartbeat) {
    Object.assign(this, {
      name: leased.name,
      attemptId: leased.attempt_id,
      definition: leased.definition,
      key: leased.key,
      step: leased.step,
      declaredStep: leased.declared_step ?? leased.step,
      index: leased.index ?? null,
      itemKey: leased.item_key ?? null,
      item: leased.item ?? null,
      given: leased.given ?? null,
      isCompensation: leased.undo,
      attempt: leased.attempt,
      input: leased.input,
      results: leased.results,
      result: leased.result,
      idempotencyKey: leased.idempotency_key,
      originalIdempotencyKey: leased.original_idempotency_key,
      traceparent: leased.traceparent,
      deadline: leased.deadline === null ? null : new Date(1000 * leased.deadline),
      cancelled: leased.cancelled ?? null,
    });
    const hidden = { lease: leased.lease, heartbeat, until: performance.now() + 500 * leased.seconds, unstorable: undefined };
    for (const [name, value] of Object.entries(hidden)) Object.defineProperty(this, name, { value, writable: true });
  }

  get signal() {
    return this.#cancelled.signal;
  }

  progress(fraction, detail) {
    if (typeof fraction !== "number" || !(fraction >= 0 && fraction <= 1)) throw new InvalidArgument("progress: must be a number from 0 to 1");
    if (detail !== undefined && typeof detail !== "string") throw new InvalidArgument("progress: the detail is a text");
    this.#news = { progress: fraction, detail: detail === undefined ? null : shortened(detail, MOST_DETAIL) };
  }

  /** The progress that was reported, and that no heartbeat has sent yet. */
  get news() {
    return this.#news;
  }

  /** A heartbeat has sent this. */
  updated(news) {
    if (this.#news === news) this.#news = null;
  }

  cancel(reason) {
    if (!this.signal.aborted) this.#cancelled.abort(reason);
  }

  /** A heartbeat said why the task is not wanted. What was known when it was claimed aborts nothing: its function is to find out what happened. */
  unwanted(why) {
    if (why && why !== this.cancelled) this.cancel(new Aborted(`${this.key}: ${why === "failed" ? "another step failed" : "the saga was aborted"}`));
  }

  /** The service refused a heartbeat. */
  refused(status, text, logger) {
    const problem = problemOf(status, text);
    if (!this.#isLost) logger.warn(`${this.attemptId}: ${problem.message}`);
    if (![403, 404, 409].includes(status)) return;
    this.#isLost = true;
    this.cancel(problem instanceof LeaseLost ? problem : new LeaseLost(status, problem.problem, problem.message));
  }
}

// What people read of what a function threw: that may be anything, also what no text can be made of.
function described(error, most = MOST_CAUSES) {
  try {
    if (!(error instanceof Error)) return String(error);
    const isOurs = error instanceof Fail || error instanceof Retry;
    const own = isOurs ? `${error.message || error.name}` : `${error.name}: ${error.message || error.code || ""}`;
    return error.cause === undefined || !most ? own : `${own}: ${described(error.cause, most - 1)}`;
  } catch {
    return "an error that cannot be described";
  }
}

function isA(error, kind) {
  try {
    return error instanceof kind;
  } catch {
    return false;
  }
}

// Whether the program must change: a repetition throws it again. JSON.parse throws a SyntaxError for data.
function isBug(error) {
  try {
    return error instanceof ReferenceError || ["ERR_MODULE_NOT_FOUND", "MODULE_NOT_FOUND"].includes(error.code);
  } catch {
    return false;
  }
}

// The file and the line that threw it, in brackets.
function placeOf(error) {
  const line = `${error.stack ?? ""}`.split("\n").find((line) => /^ +at .*\d/.test(line) && !line.includes("node:internal"));
  return line ? ` (${line.trim().replace(/^at /, "")})` : "";
}

/** Calls a function; gives what is reported: the verb, and the keys of its body as JSON. */
export async function outcomeOf(run, task, logger) {
  let result;
  try {
    result = await run(task);
  } catch (error) {
    const place = isBug(error) ? placeOf(error) : "";
    const text = `"error":${JSON.stringify(shortened(described(error) + place))}`;
    if (isA(error, Fail)) return { verb: "fail", fields: `${text},"final":true` };
    if (isA(error, Retry)) return { verb: "fail", fields: text };
    return { verb: "unknown", fields: isBug(error) ? `${text},"program_error":true` : text };
  }
  try {
    return { verb: "complete", fields: `"result":${write(result)}` };
  } catch (error) {
    const why = isA(error, InvalidArgument) ? `${error.message}` : described(error);
    logger.warn(`${task.attemptId}: the result could not be stored: ${why}`);
    return { verb: "complete", fields: `"result":${JSON.stringify({ unstorable: shortened(why) })}` };
  }
}

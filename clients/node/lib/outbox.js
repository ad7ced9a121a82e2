// Reports on their way: those that have ended while others were sent go together, and each is repeated until it is answered.

import { REPEAT, rest } from "./connection.js";
import { Problem, problemOf } from "./errors.js";
import { shortened } from "./task.js";

const MOST_SENDERS = 4;
const MOST_BATCH = 100; // reports of one request
const MOST_BYTES = 256 * 1024; // of the reports of one request, except of a single one
const FIRST_PAUSE = 100; // milliseconds
const MOST_PAUSE = 5000;

/** Whether the worker is refused, and not what it says of one task. */
export const isFinal = ({ status, problem }) => [401, 403].includes(status) && problem !== "InvalidLease";
const isUnstorable = (status) => [413, 422].includes(status);

/** How a task ended: the verb, and the keys of its body as JSON. */
export class Report {
  constructor(task, { verb, fields }) {
    Object.assign(this, { task, verb, fields, isReplaced: false });
  }

  get lease() {
    return `"lease":${JSON.stringify(this.task.lease)},${this.fields}`;
  }

  get path() {
    return `v1/tasks/${encodeURIComponent(this.task.attemptId)}/${this.verb}`;
  }

  get whole() {
    return `{"attempt_id":${JSON.stringify(this.task.attemptId)},"outcome":"${this.verb}",${this.lease}}`;
  }
}

export class Outbox {
  #ask;
  #worker;
  #logger;
  #waiting = [];
  #senders = 0;
  #count = 0;

  /**
   * `ask(path, body)` asks until it is answered. `worker` says by `next()` what to claim with reports, hears by
   * `claimed(answer)` what came of that, by `refused(problem)` that the service refuses it, and by `moved()` of each end.
   */
  constructor(ask, worker, logger) {
    this.#ask = ask;
    this.#worker = worker;
    this.#logger = logger;
  }

  /** Reports that are not answered yet. */
  get size() {
    return this.#count;
  }

  add(report) {
    this.#count += 1;
    this.#waiting.push(report);
    if (this.#senders === MOST_SENDERS) return;
    this.#senders += 1;
    setImmediate(() => this.#send()); // with what ends at the same time
  }

  async #send() {
    for (let batch = this.#batch(); batch.length; batch = this.#batch()) {
      const next = this.#worker.next();
      let found = null;
      try {
        found = await this.#deliver(batch, next);
      } catch (error) {
        this.#worker.refused(error);
      }
      this.#count -= batch.length;
      if (next) this.#worker.claimed(found);
      this.#worker.moved();
    }
    this.#senders -= 1;
  }

  #batch() {
    let count = 0;
    for (let bytes = 0; count < Math.min(this.#waiting.length, MOST_BATCH); count += 1) {
      bytes += this.#waiting[count].fields.length;
      if (count && bytes > MOST_BYTES) break;
    }
    return this.#waiting.splice(0, count);
  }

  // Sends reports until each is answered. Gives what was claimed with them.
  async #deliver(batch, next) {
    let found = null;
    let left = batch;
    for (let pause = FIRST_PAUSE; left.length > 1; pause = Math.min(MOST_PAUSE, 2 * pause)) {
      try {
        const { value } = await this.#ask("v1/tasks/report", `{"reports":[${left.map(({ whole }) => whole).join()}]${found ? "" : claimWith(next)}}`);
        found ??= value.next;
        left = value.reports.map((reply, place) => this.#again(left[place], reply)).filter(Boolean);
      } catch (error) {
        if (!(error instanceof Problem)) throw error;
        if (isFinal(error) && !next) throw error;
        break; // each by itself: one of them may be too large, or no more tasks may be claimed
      }
      if (left.length) await rest(pause);
    }
    for (const report of left) found = (await this.#alone(report, found ? null : next)) ?? found;
    return found;
  }

  // The report to send again, if there is one.
  #again(report, { kept, problem }) {
    if (kept) return null;
    return REPEAT.includes(problem.status) ? report : this.#instead(report, problemOf(problem.status, JSON.stringify(problem)));
  }

  async #alone(report, next) {
    try {
      const { value } = await this.#ask(report.path, `{${report.lease}${claimWith(next)}}`);
      return value.next;
    } catch (error) {
      if (!(error instanceof Problem)) throw error;
      if (error.status === 403 && next && isFinal(error)) return this.#alone(report, null);
      const instead = this.#instead(report, error);
      return instead && this.#alone(instead, next);
    }
  }

  // What is reported instead of what the service refuses, if anything: where a result cannot be stored, the task is done all the same.
  #instead(report, problem) {
    if (isFinal(problem)) {
      this.#worker.refused(problem);
    } else if (report.verb === "complete" && isUnstorable(problem.status) && !report.isReplaced) {
      report.fields = `"result":${JSON.stringify({ unstorable: shortened(problem.message) })}`;
      report.isReplaced = true;
      return report;
    } else {
      this.#logger.warn(`${report.task.attemptId}: ${report.verb} was refused: ${problem.message}`);
    }
    return null;
  }
}

const claimWith = (next) => (next ? `,"next":${JSON.stringify(next)}` : "");

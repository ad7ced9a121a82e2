// A worker: it claims tasks, calls functions, keeps leases and reports outcomes until they are answered.

import os from "node:os";
import { setImmediate as immediate } from "node:timers/promises";
import { Connection, FIRST_PAUSE, MOST_PAUSE, REPEAT, rest, spread } from "./connection.js";
import { InvalidArgument } from "./errors.js";
import { write } from "./json.js";
import { Outbox, Report } from "./outbox.js";
import { Task, outcomeOf, shortened } from "./task.js";

const AHEAD = 0.1; // seconds: so long may a task that was claimed ahead wait for its turn
const SHORTEST = 0.001; // seconds: a function is taken to last so long at least
const MOST_AHEAD = 50; // tasks
const MOST_REPORTS = 200; // that are not answered yet: then no function begins
const MOST_CLAIMED = 100; // of one request
const LOOK = 0.5; // seconds after which tasks that do not begin are given back; also the shortest lease
const LATE = 40; // seconds that an answer may take beyond the wait; also the longest try of a report
const MOST_HEARTBEAT = 10; // seconds that a heartbeat may take
const GRACE = 5; // seconds that the answer to a claim may take beyond the wait, once the worker is stopped
const MOST_END = 2; // seconds that the request may take that ends a claim
const END_AGAIN = 1000; // milliseconds behind which that is sent again
const WORD = /^[a-z][a-z0-9_-]{0,31}$/;
const PATH = /^[a-z][a-z0-9_-]{0,31}(\/[a-z][a-z0-9_-]{0,31}){0,8}$/; // a step, also of an included saga: `hotel/room`

const between = (what, value, least, most) => {
  if (typeof value !== "number" || !(value >= least && value <= most)) throw new InvalidArgument(`${what}: must be a number from ${least} to ${most}`);
  return value;
};

const whole = (what, value, least, most) => {
  if (!Number.isInteger(value)) throw new InvalidArgument(`${what}: must be a whole number from ${least} to ${most}`);
  return between(what, value, least, most);
};

export class Worker {
  #connection;
  #logger;
  #functions = new Map();
  #ahead = []; // claimed, and not begun
  #running = new Set(); // begun, and not ended
  #outbox;
  #isClaiming = false;
  #isHeard = false;
  #isLacking = false;
  #moves = 0;
  #mean = AHEAD; // seconds that a function took lately
  #stop = new AbortController();
  #late = new AbortController(); // of the claim that is under way at the stop
  #alarm;
  #fault = null;
  #ended = null; // resolves what `run` waits for
  #unknown = new Set(); // steps that were logged as unknown

  constructor(url, { token, concurrency = 10, lease = 30, wait = 20, name, logger = console } = {}) {
    this.concurrency = whole("concurrency", concurrency, 1, 1000);
    this.lease = between("lease", lease, 0.5, 3600);
    this.wait = between("wait", wait, 0, 30);
    this.name = shortened(name ?? `${os.hostname()}-${process.pid}`, 64);
    this.#logger = logger;
    this.#connection = new Connection(url, token);
    const self = {
      next: () => this.#next(),
      claimed: (found) => this.#claimed(found),
      refused: (error) => this.#end(error),
      moved: () => this.#move(),
    };
    const seconds = Math.min(LATE, Math.max(1, this.lease / 3)); // so that another service may still be asked within the lease
    this.#outbox = new Outbox((path, body) => this.#ask(path, body, { seconds, most: LATE }), self, logger);
  }

  get url() {
    return this.#connection.url.href.replace(/\/$/, "");
  }

  step(saga, step, run) {
    return this.#declare(`${saga}/${step}`, [saga, step], run);
  }

  compensation(saga, step, run) {
    return this.#declare(`${saga}/${step}/undo`, [saga, step], run);
  }

  #declare(word, names, run) {
    for (const [place, one] of names.entries()) {
      if (!(place ? PATH : WORD).test(one)) throw new InvalidArgument(`${JSON.stringify(one)}: a name has 1 to 32 of a-z, 0-9, _ and -, and begins with a letter`);
    }
    if (typeof run !== "function") throw new InvalidArgument(`${word}: pass a function of the task`);
    if (this.#functions.has(word)) throw new InvalidArgument(`${word} is declared twice. Remove one of the declarations`);
    this.#functions.set(word, run);
    return this;
  }

  /** Works until `stop`. Running functions end, and are reported. */
  async run({ signal } = {}) {
    if (!this.#functions.size) throw new InvalidArgument("the worker has no function. Declare one with worker.step(saga, step, function)");
    if (this.#ended) throw new InvalidArgument("the worker runs already, or has run. Make another one");
    const ended = new Promise((resolve) => { this.#ended = resolve; });
    const stop = () => this.stop();
    signal?.addEventListener("abort", stop, { once: true });
    const look = setInterval(() => this.#look(), 1000 * LOOK);
    try {
      if (signal?.aborted) this.stop();
      this.#move();
      await ended;
    } finally {
      clearInterval(look);
      clearTimeout(this.#alarm);
      signal?.removeEventListener("abort", stop);
      this.#connection.close();
    }
    if (this.#fault) throw this.#fault;
  }

  /**
   * Claims nothing more. Tasks that have not begun are given back, also those of a claim that is under way: it is ended
   * at the service. Its answer is awaited, as it may be on the line already, and nobody else has these tasks before
   * their leases end.
   */
  stop() {
    if (this.#stop.signal.aborted) return;
    this.#stop.abort();
    if (this.#isClaiming) this.#alarm = setTimeout(() => this.#late.abort(), 1000 * (this.wait + GRACE));
    this.#giveBack();
    this.#move();
  }

  get #isStopped() {
    return this.#stop.signal.aborted;
  }

  // Begins what can begin, asks for more where there is room, and ends the run once all is over.
  #move() {
    if (!this.#ended) return;
    while (!this.#isStopped && this.#isFree && this.#ahead.length) {
      const task = this.#ahead.shift();
      this.#moves += 1;
      if (performance.now() < task.until) this.#begin(task); // else it is another worker's, or soon will be
    }
    if (this.#isStopped) {
      if (!this.#running.size && !this.#outbox.size && !this.#isClaiming) this.#ended();
    } else if (!this.#isClaiming && !this.#ahead.length && this.#isFree) {
      this.#claim();
    }
  }

  get #isFree() {
    return this.#running.size < this.concurrency && this.#outbox.size < MOST_REPORTS;
  }

  // How many tasks may be claimed now: for free slots, and ahead where functions are short.
  #room() {
    const soon = Math.floor((this.concurrency * AHEAD) / Math.max(this.#mean, SHORTEST));
    const ahead = this.#mean >= AHEAD ? 0 : Math.min(MOST_AHEAD, soon);
    return Math.min(MOST_CLAIMED, this.concurrency - this.#running.size + ahead - this.#ahead.length);
  }

  #wanted(limit) {
    return { steps: [...this.#functions.keys()], limit, lease: this.lease, worker: this.name };
  }

  async #claim() {
    this.#isClaiming = true;
    try {
      await immediate(); // with what ends at the same time: only then is it known how short functions are
      const limit = Math.max(1, this.#room());
      // The first answer comes at once: it says which steps are unknown there.
      const body = JSON.stringify({ ...this.#wanted(limit), wait: this.#isHeard ? this.wait : 0 });
      const signals = { signal: this.#late.signal, stop: this.#stop.signal };
      const { value } = await this.#ask("v1/tasks/claim", body, { seconds: this.wait + LATE, ...signals, begun: (url) => this.#endAtStop(url) });
      this.#isHeard = true;
      this.#add(value);
    } catch (error) {
      if (!this.#isStopped) this.#end(error);
    } finally {
      this.#isClaiming = false;
      this.#move();
    }
  }

  // A claim is under way at a service: a stop ends it. Gives what is called once it is answered.
  #endAtStop(url) {
    const answered = new AbortController();
    const { signal } = answered;
    this.#stop.signal.addEventListener("abort", () => this.#endClaim(url, signal), { once: true, signal });
    return () => answered.abort();
  }

  // Sends the request that ends a claim until that is answered: the claim may arrive later, or be at another service
  // behind a balancer. What is said to it is no matter, but one that is refused is not sent again: the service is older.
  async #endClaim(url, signal) {
    const words = { body: JSON.stringify({ worker: this.name }), seconds: MOST_END, signal };
    const send = () => this.#connection.ask(url, "POST", "v1/tasks/claim/end", words).then(({ status }) => status, () => 0);
    try {
      for (let status = 0; status < 300 || REPEAT.includes(status);) [status] = await Promise.all([send(), rest(END_AGAIN, signal)]);
    } catch {
      // the claim is answered
    }
  }

  #ask(path, body, words) {
    const lacks = (error, url) => {
      if (error && !this.#isLacking) this.#logger.warn(`${url.origin} does not answer: ${error.message || error.code}. Retrying`);
      this.#isLacking = Boolean(error);
    };
    return this.#connection.untilAnswered("POST", path, { body, patience: Infinity, lacks, ...words });
  }

  #add({ tasks, unknown_steps: unknown, heartbeat_seconds: heartbeat }) {
    for (const step of unknown) {
      if (!this.#unknown.has(step)) this.#logger.warn(`${this.url}: no definition of the service has the step ${step}. Check its name, or add the definition there`);
      this.#unknown.add(step);
    }
    for (const leased of tasks) this.#ahead.push(new Task(leased, heartbeat));
    this.#moves += tasks.length;
    if (this.#isStopped) this.#giveBack();
  }

  async #begin(task) {
    this.#running.add(task);
    const began = performance.now();
    const outcome = await this.#outcome(task);
    this.#mean += ((performance.now() - began) / 1000 - this.#mean) / 4;
    this.#running.delete(task);
    this.#outbox.add(new Report(task, outcome));
    this.#move();
  }

  async #outcome(task) {
    let pause = FIRST_PAUSE; // after a heartbeat without a response
    const beat = async () => {
      const isHeard = await this.#renew(task, this.lease);
      if (!timer) return; // it has ended
      timer = setTimeout(beat, isHeard ? 1000 * task.heartbeat : spread(pause));
      pause = isHeard ? FIRST_PAUSE : Math.min(MOST_PAUSE, 1000 * task.heartbeat, 2 * pause);
    };
    let timer = setTimeout(beat, 1000 * task.heartbeat);
    try {
      return await outcomeOf(this.#functions.get(task.name), task, this.#logger);
    } finally {
      clearTimeout(timer);
      timer = null;
    }
  }

  // What to claim with reports, so that short functions need no request of their own.
  #next() {
    const limit = this.#isStopped || this.#isClaiming ? 0 : this.#room();
    if (limit < 1 || this.#ahead.length > limit / 2) return null;
    this.#isClaiming = true;
    return this.#wanted(limit);
  }

  #claimed(found) {
    this.#isClaiming = false;
    if (found) this.#add(found);
  }

  // Gives back what has not begun since the last look: its lease is cut short.
  #look() {
    const before = this.#seen;
    this.#seen = this.#moves;
    if (before === this.#moves && this.#ahead.length) this.#giveBack();
  }

  #seen = -1;

  async #giveBack() {
    const back = this.#ahead.splice(0);
    if (!back.length) return;
    this.#mean = Math.max(this.#mean, LOOK);
    for (const task of back) this.#running.add(task);
    await Promise.all(back.map(async (task) => (await this.#renew(task, LOOK)) || this.#renew(task, LOOK)));
    for (const task of back) this.#running.delete(task);
    this.#move();
  }

  // One heartbeat. Gives whether a service heard it; else the next one is asked, while some of the lease is left.
  async #renew(task, seconds) {
    const { url } = this.#connection;
    const { news } = task;
    const words = { body: write({ lease: task.lease, seconds, ...news }), seconds: Math.min(MOST_HEARTBEAT, this.lease / 6) };
    try {
      const { status, text } = await this.#connection.ask(url, "POST", `v1/tasks/${encodeURIComponent(task.attemptId)}/heartbeat`, words);
      if (REPEAT.includes(status)) throw new Error(`${status}`);
      if (status >= 300) task.refused(status, text, this.#logger);
      else task.unwanted(JSON.parse(text).cancelled);
      task.updated(news);
      return true;
    } catch {
      this.#connection.turnFrom(url);
      return false;
    }
  }

  #end(error) {
    this.#fault ??= error;
    this.stop();
  }
}

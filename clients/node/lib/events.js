// The stream of events: an async iterator that continues after each interruption with the event after the last one.

import { FIRST_PAUSE, rest, spread } from "./connection.js";
import { InvalidArgument, Unreachable, problemOf } from "./errors.js";
import { parse } from "./json.js";
import { eventOf } from "./views.js";

const SILENT = 40; // seconds without even a comment: the connection is dead
const ANSWER = 20; // seconds until it is opened
const ID = /^[\x20-\x7e]+$/;

/** Reads server-sent events of a text that comes in parts. */
export class EventReader {
  #rest = "";
  #event = {};

  /** The events that end in this part: each with `id`, `event` and `data` of its lines. */
  *read(part) {
    this.#rest += part;
    const lines = this.#rest.split(/\r\n|\n|\r(?!$)/);
    this.#rest = lines.pop();
    for (const line of lines) {
      if (line === "") {
        yield this.#event;
        this.#event = {};
        continue;
      }
      const [, field, value] = /^([^:]*):? ?(.*)$/s.exec(line);
      if (field === "data" && "data" in this.#event) this.#event.data += `\n${value}`;
      else if (field) this.#event[field] = value;
    }
  }
}

// An answer, read in blocks: what comes up to an empty line.
class Blocks {
  #answer;
  #parts;
  #reader = new EventReader();
  #found = [];

  constructor(answer) {
    answer.setEncoding("utf8");
    this.#answer = answer;
    this.#parts = answer[Symbol.asyncIterator]();
  }

  /** The next one. Throws where the stream ends or breaks, or is silent for so many seconds. */
  async next(silent) {
    while (!this.#found.length) {
      const { value, done } = await within(this.#answer, silent, () => this.#parts.next());
      if (done) throw new Unreachable("the stream has ended");
      this.#found.push(...this.#reader.read(value));
    }
    return this.#found.shift();
  }

  close() {
    this.#answer.destroy();
  }
}

// What comes of reading an answer; it is torn down behind so many seconds.
async function within(answer, seconds, read) {
  const alarm = setTimeout(() => answer.destroy(new Unreachable(`silent for ${seconds} s`)), 1000 * seconds);
  try {
    return await read();
  } finally {
    clearTimeout(alarm);
  }
}

async function textOf(answer) {
  let text = "";
  for await (const part of answer) text += part;
  return text;
}

export class EventStream {
  #connection;
  #path;
  #signal;
  #stopped = new AbortController();
  #blocks = null; // of the answer that is open
  #first; // its first block, if that is not looked at yet
  #last;
  #patience; // seconds for which it is opened

  constructor(connection, { key, definition, lastEventId, signal }, patience) {
    if (lastEventId && !ID.test(lastEventId)) throw new InvalidArgument(`lastEventId: ${JSON.stringify(lastEventId)} is not the id of an event`);
    const query = new URLSearchParams();
    for (const [word, value] of Object.entries({ key, definition })) if (value !== undefined) query.set(word, value);
    this.#connection = connection;
    this.#path = `v1/events?${query}`;
    this.#last = lastEventId || undefined;
    this.#patience = patience;
    this.#signal = this.#stopped.signal;
    if (signal?.aborted) this.#stopped.abort(signal.reason);
    signal?.addEventListener("abort", () => this.#stopped.abort(signal.reason), { once: true, signal: this.#signal });
  }

  /** The id of the last event, for `lastEventId` of a later stream. */
  get lastEventId() {
    return this.#last;
  }

  /** Waits until the service has opened the stream: events from now on are seen. */
  async open() {
    await this.#opened(this.#patience);
    return this;
  }

  /** Ends the stream, also a loop over it. */
  close() {
    this.#stopped.abort();
  }

  async *[Symbol.asyncIterator]() {
    try {
      for (let patience = this.#patience; ; patience = Infinity) {
        await this.#opened(patience);
        yield* this.#events();
        await rest(spread(FIRST_PAUSE), this.#signal);
      }
    } catch (error) {
      if (!this.#signal.aborted) throw error;
    } finally {
      this.close();
    }
  }

  // Opens the stream behind the last event, unless it is open.
  async #opened(patience) {
    if (this.#blocks) return;
    const most = Math.min(ANSWER, this.#patience / this.#connection.count);
    await this.#connection.repeated((url, left) => this.#begun(url, Math.min(most, left)), { patience, signal: this.#signal });
  }

  // Asks for it, and reads what comes first: the id after which it continues.
  async #begun(url, seconds) {
    const headers = { accept: "text/event-stream", ...(this.#last !== undefined && { "last-event-id": this.#last }) };
    const answer = await this.#connection.open(url, "GET", this.#path, { headers, signal: this.#signal, seconds });
    try {
      if (answer.statusCode !== 200) throw problemOf(answer.statusCode, await within(answer, seconds, () => textOf(answer)));
      if (!/^text\/event-stream\b/i.test(answer.headers["content-type"])) throw new Unreachable("the answer is not a stream of events");
      const blocks = new Blocks(answer);
      this.#first = await blocks.next(seconds);
      this.#last = this.#first.id ?? this.#last;
      this.#blocks = blocks;
    } finally {
      if (!this.#blocks) answer.destroy();
    }
  }

  // The events of the answer that is open, until it ends or breaks.
  async *#events() {
    const blocks = this.#blocks;
    try {
      for (;;) {
        const { id, event, data } = this.#first ?? (await blocks.next(SILENT));
        this.#first = undefined;
        this.#last = id ?? this.#last;
        if (event !== undefined && data !== undefined) yield eventOf(event, this.#last, parse(data));
      }
    } catch (error) {
      if (this.#signal.aborted) throw error; // else it is opened again
    } finally {
      this.#blocks = null;
      blocks.close();
    }
  }
}

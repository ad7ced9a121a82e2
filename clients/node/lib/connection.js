// Requests to one or more services over one database, which are repeated until one of them answers.

import http from "node:http";
import https from "node:https";
import { setTimeout as pause } from "node:timers/promises";
import { InvalidArgument, Problem, Unreachable, problemOf } from "./errors.js";
import { parse } from "./json.js";

/** Statuses of requests that are repeated. */
export const REPEAT = [408, 429, 500, 502, 503, 504];
export const FIRST_PAUSE = 100; // milliseconds
export const MOST_PAUSE = 5000;
const MOST_ASKED = 30_000; // of a Retry-After
const TOKEN = /^[\x21-\x7e]+$/;

/** A pause before a request is repeated: not all that wait go on at the same time. */
export const spread = (milliseconds) => milliseconds * (0.5 + Math.random() / 2);

const silence = (seconds) => new Unreachable(`no answer within ${Math.round(100 * seconds) / 100} s`);

// The address of a service. What is refused is shown without a password.
function addressOf(given) {
  const text = String(given);
  let url;
  try {
    if (/^https?:\/\/[^/]/.test(text)) url = new URL(text.endsWith("/") ? text : `${text}/`);
  } catch {
    // it has a scheme, and is none all the same
  }
  if (!url) throw new InvalidArgument(`'${text.replace(/.*@/s, "...@")}' is not the address of a service. Write, for example, http://127.0.0.1:8080`);
  if (url.username || url.password) throw new InvalidArgument(`the address of ${url.host} has a user or a password, which is not sent. Leave it out, and pass a token`);
  return url;
}

export class Connection {
  #urls;
  #headers;
  #agents;
  #closed = false;

  constructor(url, token) {
    const given = Array.isArray(url) ? url : [url];
    if (!given.length) throw new InvalidArgument("there is no address. Write, for example, http://127.0.0.1:8080");
    const first = Math.floor(Math.random() * given.length); // many clients spread over them
    this.#urls = [...given.slice(first), ...given.slice(0, first)].map(addressOf);
    if (token && !TOKEN.test(token)) throw new InvalidArgument("the token has a character that no token has, for example a line break. Copy it again");
    this.#headers = token ? { authorization: `Bearer ${token}` } : {};
    this.#agents = { "http:": new http.Agent({ keepAlive: true }), "https:": new https.Agent({ keepAlive: true }) };
  }

  /** The service that is asked now. */
  get url() {
    return this.#urls[0];
  }

  /** How many services there are. */
  get count() {
    return this.#urls.length;
  }

  /** This one does not answer: the next one is asked, unless another request has switched already. */
  turnFrom(url) {
    if (this.#urls[0] === url) this.#urls.push(this.#urls.shift());
  }

  /** Closes the connections that rest. */
  close() {
    this.#closed = true;
    for (const agent of Object.values(this.#agents)) agent.destroy();
  }

  /** One request. Gives the answer whose body is not read yet; throws where there is none, or none within so many seconds. */
  open(url, method, path, { body, headers, signal, seconds } = {}) {
    const { request } = url.protocol === "https:" ? https : http;
    const target = new URL(path, url);
    const data = body === undefined ? undefined : Buffer.from(body);
    return new Promise((resolve, reject) => {
      const asked = request({
        protocol: url.protocol, hostname: url.hostname.replace(/^\[|\]$/g, ""), port: url.port,
        path: target.pathname + target.search, method, signal, agent: this.#agents[url.protocol],
        headers: {
          ...this.#headers, ...headers,
          ...(data && { "content-type": "application/json", "content-length": data.length }),
        },
      }, (answer) => {
        clearTimeout(timer);
        resolve(answer);
      });
      const timer = seconds && setTimeout(() => asked.destroy(silence(seconds)), 1000 * seconds);
      asked.on("error", (error) => {
        clearTimeout(timer);
        error.wasReused = asked.reusedSocket;
        reject(error);
      });
      asked.end(data);
    });
  }

  /** One request and its whole answer, at most so many seconds. A connection that was closed in the meantime is opened again. */
  async ask(url, method, path, { body, seconds, signal, headers } = {}) {
    const limit = new AbortController();
    const timer = setTimeout(() => limit.abort(silence(seconds)), 1000 * seconds);
    const stop = () => limit.abort(signal.reason);
    signal?.addEventListener("abort", stop, { once: true });
    try {
      signal?.throwIfAborted();
      for (;;) {
        try {
          return await this.#whole(await this.open(url, method, path, { body, headers, signal: limit.signal }));
        } catch (error) {
          limit.signal.throwIfAborted();
          if (!(error.wasReused && ["ECONNRESET", "EPIPE"].includes(error.code))) throw error;
        }
      }
    } finally {
      clearTimeout(timer);
      signal?.removeEventListener("abort", stop);
    }
  }

  #whole(answer) {
    return new Promise((resolve, reject) => {
      const chunks = [];
      answer.on("data", (chunk) => chunks.push(chunk));
      answer.on("error", reject);
      answer.on("end", () => {
        const text = (chunks.length === 1 ? chunks[0] : Buffer.concat(chunks)).toString();
        resolve({ status: answer.statusCode, headers: answer.headers, text });
      });
    });
  }

  /**
   * Asks until a service answers. Gives the status and the value; throws a `Problem`, the reason of `signal` or `stop`,
   * or `Unreachable` where nobody has answered within `patience` seconds (Infinity: it is asked for ever). A try takes
   * `seconds` at most; the next one behind a silent one twice as many, up to `most`. `begun(url)` hears of each try,
   * and gives what is called at its end.
   */
  untilAnswered(method, path, { body, headers: more, seconds, most = seconds, patience, signal, stop, lacks, begun }) {
    let longest = seconds;
    return this.repeated(async (url, left) => {
      const ended = begun?.(url);
      try {
        const words = { body, headers: more, seconds: Math.min(longest, left), signal };
        const { status, headers, text } = await this.ask(url, method, path, words);
        if (status < 300) return { status, value: parse(text) };
        const problem = problemOf(status, text);
        if (status === 429) problem.pause = Math.min(MOST_ASKED, 1000 * Number(headers["retry-after"]) || 0);
        throw problem;
      } catch (error) {
        if (error instanceof Unreachable) longest = Math.min(most, 2 * longest); // the request may be large, and the line slow
        throw error;
      } finally {
        ended?.();
      }
    }, { patience, signal, stop, lacks });
  }

  /**
   * Calls with a service and the seconds that are left, until a call gives something. Throws a `Problem` of a status
   * that is not repeated, or `Unreachable` where no call gave anything within `patience` seconds; also the reason of
   * `signal`, which the calls heed too, or of `stop`: that ends the repetition, but a call under way comes to its end.
   */
  async repeated(call, { patience, signal, stop = signal, lacks }) {
    const until = performance.now() + 1000 * patience;
    for (let next = FIRST_PAUSE; ; next = Math.min(MOST_PAUSE, 2 * next)) {
      stop?.throwIfAborted();
      const { url } = this;
      let error;
      try {
        const found = await call(url, Math.max(0.001, (until - performance.now()) / 1000));
        lacks?.(null, url);
        return found;
      } catch (raised) {
        stop?.throwIfAborted();
        if (raised instanceof Problem && !REPEAT.includes(raised.status)) throw raised;
        error = raised;
      }
      lacks?.(error, url);
      this.turnFrom(url);
      const wait = Math.max(spread(next), error.pause ?? 0);
      if (performance.now() + wait >= until) {
        throw new Unreachable(
          `${url.origin} does not answer within ${patience} s: ${error.message || error.code}. The request may have been carried out. Repeat it`,
          { cause: error });
      }
      await rest(wait, stop);
    }
  }
}

/** Waits so many milliseconds. Throws the signal's reason. */
export async function rest(milliseconds, signal) {
  try {
    await pause(milliseconds, undefined, { signal });
  } catch (error) {
    throw signal.reason ?? error;
  }
}

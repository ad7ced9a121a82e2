// The stream of events at servers that do not answer, or answer something else.

import assert from "node:assert/strict";
import { once } from "node:events";
import http from "node:http";
import net from "node:net";
import { test } from "node:test";
import { Client, Unreachable } from "../index.js";

const STREAM = { "content-type": "text/event-stream" };
const ENDED = 'id: b-1\nevent: saga_ended\ndata: {"key": "k"}\n\n';

async function listening(server, t) {
  await once(server.listen(0, "127.0.0.1"), "listening");
  t.after(() => server.close());
  return `http://127.0.0.1:${server.address().port}`;
}

// A server that answers each request by the next one of these; the last one answers all that follow.
async function answering(t, ...says) {
  const requests = [];
  const url = await listening(http.createServer((request, answer) => {
    requests.push(request);
    t.after(() => answer.destroy());
    says[Math.min(requests.length, says.length) - 1](answer);
  }), t);
  return { url, requests };
}

const streams = (text) => (answer) => answer.writeHead(200, STREAM).write(text);
const ends = (text, type = "text/event-stream") => (answer) => answer.writeHead(200, { "content-type": type }).end(text);

for (const [what, said] of Object.entries({
  "says nothing": "",
  "says half a head": "HTTP/1.1 200 OK\r\nContent-Ty",
  "says half a refusal": "HTTP/1.1 503 Busy\r\nContent-Length: 9\r\n\r\n{",
  "says nothing behind the head": "HTTP/1.1 200 OK\r\nContent-Type: text/event-stream\r\n\r\n",
})) {
  test(`a stream turns from a service that ${what}`, { timeout: 60_000 }, async (t) => {
    const silent = await listening(net.createServer((socket) => {
      socket.on("error", () => {});
      socket.write(said);
      t.after(() => socket.destroy());
    }), t);
    const { url } = await answering(t, streams(ENDED));
    const client = new Client([silent, ...Array(49).fill(url)], { timeout: 10 }); // each has a part of the time
    for await (const event of client.events()) {
      assert.deepEqual([event.name, event.key], ["saga_ended", "k"]);
      break;
    }
    assert.equal(client.url, url);
    client.close();
  });
}

test("what happens between the opening and the loop is seen, also if the stream breaks meanwhile", { timeout: 60_000 }, async (t) => {
  let cut;
  const { url, requests } = await answering(t, (answer) => {
    answer.writeHead(200, STREAM).write("id: b-7\n\n");
    cut = () => answer.destroy();
  }, streams(ENDED));
  const client = new Client(url);
  const events = await client.events().open();
  assert.equal(events.lastEventId, "b-7");
  cut();
  for await (const event of events) {
    assert.equal(event.name, "saga_ended");
    break;
  }
  assert.deepEqual(requests.map(({ headers }) => headers["last-event-id"]), [undefined, "b-7"]);
  client.close();
});

test("an event that comes first is not lost", { timeout: 60_000 }, async (t) => {
  const { url } = await answering(t, streams(ENDED));
  const client = new Client(url);
  const events = await client.events().open();
  assert.equal((await events[Symbol.asyncIterator]().next()).value.name, "saga_ended");
  events.close();
  client.close();
});

for (const [what, say] of Object.entries({
  "a page": ends("<html>\n\n</html>", "text/html"),
  "nothing": ends(""),
  "that it is busy": (answer) => answer.writeHead(503).end(),
})) {
  test(`the opening ends where all services answer ${what}`, { timeout: 60_000 }, async (t) => {
    const { url, requests } = await answering(t, say);
    const client = new Client(url, { timeout: 0.5 });
    await assert.rejects(client.events().open(), Unreachable);
    const loop = async () => { for await (const event of client.events()) assert.fail(event); };
    await assert.rejects(loop(), Unreachable);
    assert.ok(requests.length < 20, `${requests.length} requests`); // there are pauses
    client.close();
  });
}

test("the opening ends where no service is", { timeout: 60_000 }, async () => {
  const client = new Client("http://127.0.0.1:1", { timeout: 0.2 });
  await assert.rejects(client.events().open(), Unreachable);
  client.close();
});

test("a stream that ends is opened again after a pause, also for longer than a call is repeated", { timeout: 60_000 }, async (t) => {
  const busy = (answer) => answer.writeHead(503).end();
  const { url, requests } = await answering(t, ...Array(4).fill(ends("id: b-1\n\n")), ...Array(6).fill(busy), streams(ENDED));
  const client = new Client(url, { timeout: 3 });
  const events = await client.events().open();
  const began = performance.now();
  for await (const event of events) {
    assert.equal(event.name, "saga_ended");
    break;
  }
  assert.equal(requests.length, 11);
  assert.ok(performance.now() - began > 4 * 49 + 3100); // the pauses, at their shortest
  client.close();
});

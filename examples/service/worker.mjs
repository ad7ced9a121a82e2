// A worker in Node: the hotel, and giving it back.
//
//     node examples/service/worker.mjs http://127.0.0.1:8080 [TOKEN]
//
// HOTEL in the environment is the address of the hotel's own service: a booking is a request to it.

const [url, token] = process.argv.slice(2);
if (!url) {
  console.error("usage: node examples/service/worker.mjs URL [TOKEN]");
  process.exit(2);
}
const pause = (ms) => new Promise((go) => setTimeout(go, ms));

const LEASE = 10; // seconds
class Unknown extends Error {} // it may have had its effect

async function hotel(method, task) {
  if (!process.env.HOTEL) return;
  const headers = { "idempotency-key": task.idempotency_key }; // a task that is done twice books once
  const signal = AbortSignal.timeout(5000);
  const answer = await fetch(process.env.HOTEL, { method, headers, signal });
  if (answer.status >= 500) throw new Unknown(`the hotel answers ${answer.status}`);
  if (!answer.ok) throw new Error(`the hotel answers ${answer.status}`);
}

const functions = {
  "trip/hotel": async (task) => {
    if (task.input?.wish === "full") throw new Error("the hotel is full");
    await hotel("POST", task);
    return { room: 4, key: task.idempotency_key };
  },
  "trip/hotel/undo": async (task) => {
    await hotel("DELETE", task);
    console.log(`cancelled: room ${task.result.room}`);
  },
};

// Behind a connection that was lost, or a time that ran out, the hotel may have done it.
const isUnknown = (error) =>
  error instanceof Unknown || ["AbortError", "TimeoutError"].includes(error?.name)
  || Boolean(error?.cause?.code ?? error?.code);

const REPEAT = [408, 429, 500, 502, 503, 504]; // as a claim's `repeat_statuses` says
let lacks = false; // whether it has been said that the service does not answer

async function post(path, body) {
  for (;;) { // until it is answered: the service may be about to start again
    try {
      const headers = { "content-type": "application/json", ...(token && { authorization: `Bearer ${token}` }) };
      const answer = await fetch(url + path, { method: "POST", headers, body: JSON.stringify(body) });
      lacks = false;
      const { status } = answer;
      if (!REPEAT.includes(status)) return { status, ...(await answer.json()) };
    } catch (error) {
      if (!lacks) console.error(`${url} does not answer: ${error.cause?.message || error.cause?.code || error.message}: asking again and again`);
      lacks = true;
    }
    await pause(500);
  }
}

async function work(task, every) {
  const lease = { lease: task.lease };
  const path_of = (verb) => `/v1/tasks/${task.attempt_id}/${verb}`;
  const renew = () => post(path_of("heartbeat"), { ...lease, seconds: LEASE });
  const beat = setInterval(renew, 1000 * every);
  let path = "complete", told;
  try {
    told = { result: (await functions[task.name](task)) ?? null };
  } catch (error) { // "fail" says that it had no effect
    path = isUnknown(error) ? "unknown" : "fail";
    told = { error: [error, error?.cause].filter(Boolean).join(": ") };
  }
  clearInterval(beat);
  const answer = await post(path_of(path), { ...lease, ...told });
  if (answer.status !== 200) console.error(task.attempt_id, answer.type, answer.detail);
}

for (;;) {
  const wanted = { steps: Object.keys(functions), worker: "node", wait: 20, lease: LEASE };
  const { tasks, heartbeat_seconds, detail } = await post("/v1/tasks/claim", wanted);
  if (!tasks) throw new Error(detail);
  await Promise.all(tasks.map((task) => work(task, heartbeat_seconds)));
}

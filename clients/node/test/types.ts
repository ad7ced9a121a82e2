// What the types accept and refuse; `tsc --project test` checks it, and nothing runs it.

import { Client, Fail, KeyConflict, Problem, Worker, type EventStream, type Saga, type Task } from "sagas";
import { load, OK } from "sagas/planner";


interface Results {
  hotel: { room: number };
  car: { id: string };
}

interface Known {
  trip: { input: { to: string }; results: Results };
}

const client = new Client<Known>(["http://127.0.0.1:8080", new URL("http://127.0.0.1:8081")], {
  token: "t", timeout: 5, codec: { decode: (data) => data }, blobs: { get: async (key: string) => new TextEncoder().encode(key) },
});

async function call(): Promise<void> {
  const run = await client.start("trip", "order-1", { to: "Rome" }, { labels: { customer: "7" }, deadline: 60 });
  const isNew: boolean = run.new;
  const end = await run.wait({ timeout: 30 });
  const room: number | undefined = end.results.hotel?.room;
  const state: string = end.states.car;
  const cost: number | null | undefined = end.plan?.cost;
  // @ts-expect-error: the input has another type
  await client.start("trip", "order-1", { to: 7 });
  // @ts-expect-error: there is no such definition
  await client.start("tripp", "order-1", { to: "Rome" });
  // @ts-expect-error: there is no such step
  end.results.boat;
  // @ts-expect-error: the phase has another name
  end.phase === "done";
  const found: Saga<{ to: string }, Results> | null = await client.get<"trip">("order-1");
  const aborted: boolean = await client.abort("order-1", { note: "no more" });
  await client.complete("order-1", "car", { id: "x" }, { undo: true });
  for await (const entry of client.decisions({ decision: "retry" })) entry.sagas[0]?.key.length;
  for await (const saga of client.list({ phase: "open", labels: { customer: "7" }, startedAfter: new Date() })) saga.key.length;
  const events: EventStream = await client.events({ key: "order-1" }).open();
  for await (const event of events) if (event.name === "saga_ended") break;
  try {
    await client.fail("order-1", "car", "too expensive");
  } catch (error) {
    if (error instanceof KeyConflict) error.problem.length;
    if (error instanceof Problem) error.status.toFixed();
  }
  void [isNew, room, state, cost, found, aborted];
}

const plain = new Client("http://127.0.0.1:8080");
void plain.start("whatever", "key", [1, 2]).then(async (run) => (await run.wait()).results["step"].anything);

const worker = new Worker<Known>("http://127.0.0.1:8080", { token: "t", concurrency: 20, logger: { warn: () => {} } })
  .step("trip", "hotel", async (task) => {
    task.progress(0.5, "half");
    if (task.input.to === "nowhere") throw new Fail("no such place", { cause: task.signal.reason });
    return { room: 4 };
  })
  // @ts-expect-error: the result has another type
  .step("trip", "car", () => ({ id: 7 }))
  .compensation("trip", "hotel", (task) => task.result.room.toFixed());
void worker.run({ signal: new AbortController().signal });
worker.stop();

new Worker("http://127.0.0.1:8080").step("any", "step", (task: Task) => task.input.whatever);

async function plan(): Promise<string | undefined> {
  const { status, text } = (await load()).plan("..", new Uint8Array());
  return status === OK ? text : undefined;
}

void [call, plan];

interface Order {
  input: { parcels: Record<string, { to: string }> };
  items: { ship: { to: string }; "box/pack": number };
  results: { ship: Record<string, { number: string }>; "box/pack": boolean[]; mail: number };
}

new Worker<{ order: Order }>("http://127.0.0.1:8080")
  .step("order", "ship", (task) => ({ number: `${task.item.to} ${task.index?.toFixed()} ${task.itemKey?.length}` }))
  .compensation("order", "ship", (task) => task.result.number + task.item.to)
  .step("order", "box/pack", (task) => task.item > 3 && task.declaredStep !== "box/pack")
  .step("order", "mail", (task) => {
    const sent: string | undefined = task.results.ship?.["a b"]?.number;
    const packed: boolean | undefined = task.results["box/pack"]?.[0];
    const none: null = task.item;
    return sent && packed && !none ? 1 : 0;
  })
  // @ts-expect-error: the item has another type
  .step("order", "ship", (task) => ({ number: task.item.from }))
  // @ts-expect-error: the result of an item has another type
  .step("order", "ship", () => ({ number: 7 }));

new Worker("http://127.0.0.1:8080").step("any", "step", (task) => task.item.anything + task.results.step.anything);

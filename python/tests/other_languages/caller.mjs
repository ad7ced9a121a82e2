// A caller made from openapi.json alone: each call by its operation id.
//
//     node caller.mjs URL TOKEN KEY
const [url, token, key] = process.argv.slice(2);
const document = await (await fetch(`${url}/openapi.json`)).json();

const client = {};
for (const [path, methods] of Object.entries(document.paths)) {
  for (const [method, operation] of Object.entries(methods)) {
    client[operation.operationId] = async (words = {}, body = undefined) => {
      const query = new URLSearchParams();
      let address = path;
      for (const { name, in: place } of operation.parameters ?? []) {
        if (!(name in words)) continue;
        if (place === "path") address = address.replace(`{${name}}`, encodeURIComponent(words[name]));
        else query.set(name, words[name]);
      }
      const headers = { authorization: `Bearer ${token}` };
      if (body !== undefined) headers["content-type"] = "application/json";
      const answer = await fetch(`${url}${address}?${query}`, {
        method: method.toUpperCase(), headers, body: body && JSON.stringify(body),
      });
      if (!(answer.status in operation.responses)) throw new Error(`${answer.status} of ${path}`);
      return { status: answer.status, body: await answer.json() };
    };
  }
}

const start = { definition: "trip", key, input: { to: "Rome" } };
const first = await client.startSaga({}, start);
const again = await client.startSaga({}, start);
const other = await client.startSaga({}, { ...start, input: null });
let saga;
do saga = (await client.waitForSaga({ key, seconds: 20 })).body; while (!saga.over);
const what = await client.whatIf({ key }, { abort: true });
console.log(JSON.stringify({
  statuses: [first.status, again.status, other.status, what.status],
  types: [other.body.type, what.body.type], phase: saga.phase, car: saga.results.car,
}));

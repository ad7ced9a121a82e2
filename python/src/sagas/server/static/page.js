// Keeps times true, brings what is new, and lets `/` go to the search. The page is whole without it.
"use strict";

const ago = (seconds) => {
  const long = seconds > -1 ? seconds : -seconds, form = (text) => (seconds > -1 ? `${text} ago` : `in ${text}`);
  for (const [length, word] of [[86400, "d"], [3600, "h"], [60, "min"]]) {
    if (long >= length) return form(`${Math.floor(long / length)} ${word}`);
  }
  return form(`${Math.max(0, Math.floor(long))} s`);
};

const times = () => {
  for (const time of document.querySelectorAll("main time:not(.exact)")) {
    time.textContent = ago((Date.now() - Date.parse(time.dateTime)) / 1000);
  }
};
times();
setInterval(times, 5000);

// A large picture can be fitted, zoomed and dragged, and has a small one above; it begins where something goes on, or went wrong.
const drawn = new WeakMap(); // by the frame of a picture that has tools: what draws it as it was chosen
const make = (name, className) => {
  const one = document.createElement(name);
  one.className = className;
  one.dataset.made = ""; // it is not of the service's page
  return one;
};
const tools = (frame) => {
  const bar = make("p", "tools"), map = make("div", "map");
  const small = map.appendChild(document.createElementNS("http://www.w3.org/2000/svg", "svg"));
  const seen = document.createElementNS("http://www.w3.org/2000/svg", "rect");
  seen.classList.add("seen");
  map.setAttribute("aria-hidden", "true");
  frame.before(bar);
  const picture = () => frame.querySelector("svg"), size = () => picture().viewBox.baseVal;
  const show = () => {
    const by = picture().clientWidth / size().width || 1;
    for (const [name, value] of [["x", frame.scrollLeft], ["y", frame.scrollTop], ["width", frame.clientWidth], ["height", frame.clientHeight]]) seen.setAttribute(name, value / by);
  };
  let scale = size().width > 1.45 * room(frame) ? 1 : 0; // fitted, nobody could read it
  const draw = () => {
    const svg = picture(), boxes = [...svg.querySelectorAll(".step")];
    frame.classList.toggle("fit", scale === 0);
    frame.classList.toggle("zoomed", scale !== 0);
    svg.setAttribute("width", size().width * (scale || 1));
    svg.setAttribute("height", size().height * (scale || 1));
    map.hidden = scale === 0 || frame.clientHeight < 260;
    small.setAttribute("viewBox", svg.getAttribute("viewBox"));
    small.replaceChildren(...boxes.map((box) => {
      const copy = box.cloneNode(false);
      copy.append(box.querySelector(".box").cloneNode(false));
      return copy;
    }), seen);
    show();
  };
  const zoom = (next) => {
    scale = next;
    draw();
    const going = picture().querySelector(".step:is(.failed, .person, .running, .undoing)");
    if (!going || !scale) return;
    const place = going.getBoundingClientRect(), around = frame.getBoundingClientRect();
    frame.scrollLeft += place.left - around.left - (around.width - place.width) / 2;
    frame.scrollTop += place.top - around.top - (around.height - place.height) / 2;
  };
  const now = () => scale || picture().clientWidth / size().width;
  for (const [title, name, next] of [["Fit", "Fit", () => 0], ["−", "smaller", () => Math.max(0.2, now() / 1.4)], ["100 %", "100 %", () => 1], ["+", "larger", () => Math.min(3, now() * 1.4)]]) {
    const button = bar.appendChild(make("button", ""));
    button.type = "button";
    button.textContent = title;
    button.setAttribute("aria-label", `Picture: ${name}`);
    button.addEventListener("click", () => zoom(next()));
  }
  bar.append(map); // above the picture: it covers no step
  frame.addEventListener("scroll", show, { passive: true });
  frame.addEventListener("pointerdown", (event) => {
    if (event.pointerType !== "mouse" || event.button) return;
    const x = event.clientX + frame.scrollLeft, y = event.clientY + frame.scrollTop;
    const move = (at) => { frame.scrollLeft = x - at.clientX; frame.scrollTop = y - at.clientY; };
    const stop = () => { removeEventListener("pointermove", move); removeEventListener("pointerup", stop); };
    addEventListener("pointermove", move);
    addEventListener("pointerup", stop);
  });
  zoom(scale);
  return draw;
};
const room = (frame) => frame.clientWidth - 2 * parseFloat(getComputedStyle(frame).paddingLeft);
const pictures = () => {
  for (const svg of document.querySelectorAll(".scroll.pad > svg.picture")) {
    const frame = svg.parentElement, { width, height } = svg.viewBox.baseVal;
    if (drawn.has(frame)) drawn.get(frame)();
    else if (width > room(frame) || height > 900) drawn.set(frame, tools(frame));
  }
};
pictures();

// The buttons that copy a key exist for a script alone: without it, the key is there to be selected.
document.documentElement.classList.add("scripted");
const copy = async (text) => {
  const isWritten = await navigator.clipboard?.writeText(text).then(() => true, () => false);
  if (isWritten) return; // without TLS, or a permission, there is no clipboard
  const field = document.body.appendChild(document.createElement("textarea"));
  field.value = text;
  field.select();
  const isDone = document.execCommand("copy");
  field.remove();
  if (!isDone) throw new Error("it was not copied");
};
document.addEventListener("click", async (event) => {
  const button = event.target.closest(".copy");
  if (!button) return;
  const isDone = await copy(button.dataset.copy).then(() => true, () => false);
  button.focus();
  document.getElementById("said").textContent = isDone ? "Copied." : "It was not copied. Select it.";
  button.classList.toggle("done", isDone);
  setTimeout(() => button.classList.remove("done"), 2000);
});

document.addEventListener("keydown", (event) => {
  const search = document.querySelector("[data-search]");
  const within = event.target.closest("input, textarea, select");
  if (event.key === "/" && search && !within && !event.ctrlKey && !event.metaKey && !event.altKey) {
    event.preventDefault();
    search.focus();
  }
});

// What a node is: a link by what it leads to, a field by its name and value, and a row by the first of these in it.
const named = "[data-keep], a[href], input, button, option";
const identity = (node) => {
  if (node.nodeType !== Node.ELEMENT_NODE) return node.nodeName;
  const one = node.matches(named) ? node : node.matches("tr, li, .group") ? node.querySelector(named) : null;
  const words = ["data-keep", "href", "name", "value"].map((name) => one?.getAttribute(name));
  return [node.nodeName, ...words, one?.nodeName === "OPTION" ? one.text : ""].join("\n");
};

// Makes a node like a new one, and leaves alone what is the same: so what is typed, selected, focused, unfolded and scrolled to stays so.
const patch = (old, fresh) => {
  if (old.isEqualNode(fresh)) return;
  if (old.nodeType !== Node.ELEMENT_NODE) { old.data = fresh.data; return; }
  for (const name of new Set([...old.getAttributeNames(), ...fresh.getAttributeNames()])) {
    if (name === "open" || old.getAttribute(name) === fresh.getAttribute(name)) continue;
    if (fresh.hasAttribute(name)) old.setAttributeNode(fresh.getAttributeNode(name).cloneNode()); // with its namespace
    else old.removeAttribute(name);
  }
  const left = [...old.childNodes].filter((one) => one.dataset?.made === undefined), names = left.map(identity), passed = new Map();
  for (const child of [...fresh.childNodes]) {
    const name = identity(child), place = child.nodeType === Node.ELEMENT_NODE || names[0] === name ? names.indexOf(name) : -1;
    for (let count = place; count > 0; count--) { // these are gone, or come later
      left[0].remove();
      passed.set(names.shift(), left.shift());
    }
    const there = place < 0 ? passed.get(name) : left.shift();
    if (place < 0) old.insertBefore(there ?? child, left[0] ?? null);
    else names.shift();
    passed.delete(name);
    if (there) patch(there, child);
  }
  for (const one of left) one.remove();
};
const merge = (main, fresh) => { // what was selected or focused is so as well where it has come to another place
  const active = document.activeElement, focused = main.contains(active) && active.matches(named) ? identity(active) : null;
  const selected = new Set([...main.querySelectorAll("input:checked")].map(identity));
  patch(main, fresh);
  let isLost = focused && document.activeElement !== active;
  for (const one of isLost || selected.size ? main.querySelectorAll(named) : []) {
    const name = identity(one), isFocus = isLost && name === focused, isSelected = selected.has(name) && !one.checked;
    if (isSelected) one.checked = true;
    if (isSelected || isFocus) one.closest("details")?.setAttribute("open", "");
    if (isFocus) { one.focus({ preventScroll: true }); isLost = false; }
  }
};
const words = (main) => { // what it says, but for its times
  const copy = main.cloneNode(true);
  for (const one of copy.querySelectorAll("time, [data-made]")) one.remove();
  return copy.textContent;
};

// Takes the page again when something has happened, at most once a second and for a sixth of the time, and puts in what is new.
const live = document.body.dataset.live;
if (live) {
  const [main, lapsed, said] = ["main", "lapsed", "said"].map((id) => document.getElementById(id));
  const pause = 5000; // until what has failed is tried again
  let wanted = false, busy = false, isCut = false, isOld = false, again = 0;
  const tell = () => { lapsed.hidden = !isCut && !isOld; };
  let isSaid = false, isUnsaid = false;
  const say = () => { // to those who hear the page, and not each time
    isUnsaid = isSaid;
    if (isSaid) return;
    said.textContent = `This page changed at ${new Date().toLocaleTimeString()}.`;
    isSaid = true;
    setTimeout(() => { isSaid = false; if (isUnsaid) say(); }, 30000);
  };
  const put = (fresh) => {
    if (words(fresh) !== words(main)) say();
    merge(main, fresh);
    times();
    pictures();
  };
  const page = async () => {
    const answer = await fetch(location.href, { headers: { accept: "text/html" }, signal: AbortSignal.timeout(60000) });
    const isPage = answer.ok || answer.status === 404; // it may say that the saga is not kept any more
    return isPage ? new DOMParser().parseFromString(await answer.text(), "text/html").getElementById("main") : null;
  };
  const renew = async () => {
    if (busy || document.hidden) { wanted = true; return; }
    [busy, wanted] = [true, false];
    const began = performance.now(), fresh = await page().catch(() => null), took = performance.now() - began;
    if (!fresh) wanted = true; // the service starts again, or has too much to do
    isOld = !fresh;
    tell();
    setTimeout(() => { busy = false; if (wanted) renew(); }, fresh ? Math.max(1000, 5 * took) : pause);
    if (fresh) put(fresh);
    againLater();
  };
  const againLater = () => { // figures that are older than what has happened are counted anew in so many seconds
    const seconds = document.querySelector("[data-again]")?.dataset.again;
    clearTimeout(again);
    if (seconds) again = setTimeout(renew, 1000 * seconds + 100);
  };
  againLater();
  const names = ["saga_started", "step_started", "step_succeeded", "step_retrying", "step_failed", "step_exhausted", "step_unknown", "step_cannot_decode", "step_suspended", "step_offered_again", "plan_adopted", "saga_overdue", "saga_aborted", "saga_ended", "saga_stuck", "saga_resolved", "step_overdue", "lease_expired", "missed"];
  let source = null, since = document.body.dataset.since, later = 0;
  const opened = () => { // what happened while there was no stream is on a new page
    if (isCut) renew();
    isCut = false;
    tell();
  };
  const ended = () => { // a browser tries again by itself, except where a stream was refused
    isCut = true;
    tell();
    clearTimeout(later);
    if (source?.readyState !== EventSource.CLOSED) return;
    later = setTimeout(() => renew().finally(listen), pause); // a new page may have a new session
  };
  const listen = () => { // a page that nobody sees has no stream: a browser has few connections
    clearTimeout(later);
    source?.close();
    source = document.hidden ? null : new EventSource(since ? `${live}${live.includes("?") ? "&" : "?"}since=${since}` : live);
    since = ""; // what happened before the page was asked for is on it; later streams begin with a new page
    if (!source) return;
    names.forEach((name) => source.addEventListener(name, renew));
    source.addEventListener("open", opened);
    source.addEventListener("error", ended);
  };
  listen();
  document.addEventListener("visibilitychange", () => { listen(); if (!document.hidden) renew(); });
  addEventListener("pagehide", () => { clearTimeout(later); source?.close(); });
}

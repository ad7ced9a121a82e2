const faults = [], words = (node) => (node.textContent || "").trim().replace(/\s+/g, " ").slice(0, 50);
const color = (text) => {
  const made = document.createElement("canvas").getContext("2d", { willReadFrequently: true });
  made.clearRect(0, 0, 1, 1); made.fillStyle = text; made.fillRect(0, 0, 1, 1);
  const [r, g, b, a] = made.getImageData(0, 0, 1, 1).data;
  return [r, g, b, a / 255];
};
const known = new Map(), of = (text) => known.get(text) ?? known.set(text, color(text)).get(text);
const over = ([r, g, b, a], [x, y, z]) => [r * a + x * (1 - a), g * a + y * (1 - a), b * a + z * (1 - a), 1];
const light = (part) => (part /= 255) <= 0.04045 ? part / 12.92 : ((part + 0.055) / 1.055) ** 2.4;
const luminance = ([r, g, b]) => 0.2126 * light(r) + 0.7152 * light(g) + 0.0722 * light(b);
const contrast = (one, two) => { const [low, high] = [luminance(one), luminance(two)].sort((a, b) => a - b); return (high + 0.05) / (low + 0.05); };
const ground = (node) => {
  const box = node.closest?.("svg :is(.step, .node)")?.querySelector(".box, .shape");
  const layers = box ? [of(getComputedStyle(box).fill)] : [];
  for (let one = node; one; one = one.parentElement) layers.push(of(getComputedStyle(one).backgroundColor));
  let result = [255, 255, 255, 1];
  for (const layer of layers.reverse()) result = over(layer, result);
  return result;
};
const opacity = (node) => { let all = 1; for (let one = node; one; one = one.parentElement) all *= parseFloat(getComputedStyle(one).opacity); return all; };
const isSeen = (node) => node.checkVisibility({ visibilityProperty: true, opacityProperty: true }) && !node.closest(".sr, .skip, .sprite, [hidden], .map, stack thead");
const seen = new Set();
const check = (node, text, style, what) => {
  const size = parseFloat(style.fontSize), isLarge = size >= 24 || (size >= 18.66 && parseInt(style.fontWeight) >= 700);
  const back = ground(node), paint = of(node.closest("svg") && node.namespaceURI.endsWith("svg") ? style.fill : style.color);
  const ratio = contrast(over([paint[0], paint[1], paint[2], paint[3] * opacity(node)], back), back), least = isLarge ? 3 : 4.5;
  const key = `${style.color}${style.fill}${back}${isLarge}`;
  if (ratio < least - 0.005 && !seen.has(key)) { seen.add(key); faults.push(`contrast ${ratio.toFixed(2)} < ${least} of ${what} "${text}" (${node.nodeName.toLowerCase()}.${node.getAttribute("class") || ""})`); }
};
const walker = document.createTreeWalker(document.body, NodeFilter.SHOW_TEXT);
for (let text; (text = walker.nextNode()); ) {
  const node = text.parentElement;
  if (!words(text) || !isSeen(node) || node.closest("script, style, option, title, desc, :disabled")) continue;
  const range = document.createRange(); range.selectNodeContents(text);
  if (![...range.getClientRects()].some((one) => one.width > 1 && one.height > 1)) continue;
  check(node, words(text), getComputedStyle(node), "text");
}
for (const field of document.querySelectorAll("input, textarea, select")) {
  if (field.type === "hidden" || !isSeen(field)) continue;
  if (field.placeholder) check(field, field.placeholder, getComputedStyle(field, "::placeholder"), "placeholder");
  if (field.value && field.type !== "checkbox") check(field, field.value.slice(0, 20), getComputedStyle(field), "value");
  const named = field.labels?.length || field.getAttribute("aria-label") || field.getAttribute("aria-labelledby");
  if (!named) faults.push(`no label: ${field.nodeName.toLowerCase()} ${field.name}`);
}
// The border of a field, and the lines and boxes of a picture, against what is around them.
const border = (node, style, what) => {
  const back = ground(node.parentElement), line = over(of(style), back), ratio = contrast(line, back), key = `${line}${back}${what}`;
  if (ratio < 2.995 && !seen.has(key)) { seen.add(key); faults.push(`contrast ${ratio.toFixed(2)} < 3 of ${what} (${node.nodeName.toLowerCase()}.${node.getAttribute("class") || ""})`); }
};
for (const field of document.querySelectorAll("input, textarea, select"))
  if (!["hidden", "checkbox", "radio"].includes(field.type) && isSeen(field) && !field.disabled) border(field, getComputedStyle(field).borderTopColor, `border of ${field.name}`);
for (const line of document.querySelectorAll("svg :is(.need, .box)"))
  if (isSeen(line) && getComputedStyle(line).stroke !== "none") border(line.closest("svg"), getComputedStyle(line).stroke, "a picture's line");
for (const node of document.querySelectorAll("a[href], button, summary, [role=group][tabindex], [role=img], nav, form[role], meter")) {
  const by = (node.getAttribute("aria-labelledby") || "").split(" ").map((id) => id && document.getElementById(id)?.textContent).join("");
  if (!words(node) && !node.getAttribute("aria-label") && !by) faults.push(`no name: ${node.outerHTML.slice(0, 80)}`);
}
for (const node of document.querySelectorAll("[aria-labelledby], [aria-describedby]"))
  for (const id of `${node.getAttribute("aria-labelledby") || ""} ${node.getAttribute("aria-describedby") || ""}`.trim().split(/\s+/))
    if (!document.getElementById(id)) faults.push(`no element has the id ${id}`);
const ids = [...document.querySelectorAll("[id]")].map((one) => one.id), twice = ids.filter((id, at) => ids.indexOf(id) !== at);
if (twice.length) faults.push(`ids occur twice: ${twice.slice(0, 5)}`);
let level = 0;
const heads = [...document.querySelectorAll("h1, h2, h3, h4, h5, h6")];
for (const head of heads) {
  const next = parseInt(head.nodeName[1]);
  if (next > level + 1) faults.push(`heading ${head.nodeName} "${words(head)}" follows level ${level}`);
  level = next;
}
if (heads.filter((head) => head.matches("h1")).length !== 1) faults.push("not exactly one main heading");
if (!document.documentElement.lang) faults.push("no language");
if (!document.title.trim()) faults.push("no title");
if (!document.querySelector("main")) faults.push("no main");
for (const table of document.querySelectorAll("table")) {
  if (!table.caption && !table.getAttribute("aria-label")) faults.push(`a table has no caption: ${words(table)}`);
  for (const cell of table.querySelectorAll("th")) if (!cell.scope) faults.push(`a heading cell has no scope: ${words(cell)}`);
}
const excess = document.documentElement.scrollWidth - document.documentElement.clientWidth;
if (excess > 0) faults.push(`the page is ${excess} pixels wider than the window`);
return faults;

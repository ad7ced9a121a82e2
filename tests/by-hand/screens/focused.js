const node = document.activeElement, style = getComputedStyle(node), box = node.getBoundingClientRect();
const text = (node.getAttribute("aria-label") || node.textContent || node.name || "").trim().replace(/\s+/g, " ").slice(0, 40);
const isRing = (of) => of.outlineStyle !== "none" && parseFloat(of.outlineWidth) > 0 || of.boxShadow !== "none";
const shape = node.matches("g") ? node.querySelector(".shape, .box") : null, label = node.nextElementSibling;
const ring = isRing(style) || (shape && parseFloat(getComputedStyle(shape).strokeWidth) >= 3) || (node.type === "radio" && label && isRing(getComputedStyle(label)));
const shown = box.bottom > 0 && box.top < innerHeight && box.width > 0 && box.height > 0;
const seen = shown || (node.type === "radio" && label && label.getBoundingClientRect().height > 0);
return [window.controls.indexOf(node), `${node.nodeName.toLowerCase()} "${text}"`, Boolean(ring), Boolean(seen)];

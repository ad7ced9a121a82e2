const isSeen = (node) => node.checkVisibility({ visibilityProperty: true }) && !node.closest("[hidden]");
const all = [...document.querySelectorAll("a[href], button, input, select, textarea, summary, [tabindex='0']")];
const isChosen = (node) => node.type !== "radio" || node.checked; // Tab leads to the checked one
window.controls = all.filter((node) => isChosen(node)).filter((node) => node.type !== "hidden" && !node.disabled && isSeen(node) && node.tabIndex >= 0);
document.body.tabIndex = -1; // Tab begins here
document.body.focus();
document.body.removeAttribute('tabindex');
window.scrollTo(0, 0);
return window.controls.length;

// The script of an audit's report: opens the pair that a square leads to, and keys. Without it squares lead there and pairs open by a click.
"use strict";
let pairs, at = -1;

function go(to, open) {
  if (to < 0 || to >= pairs.length) return;
  at = to;
  if (open) pairs[at].open = true;
  pairs[at].scrollIntoView({ block: "start" });
  pairs[at].querySelector("summary").focus({ preventScroll: true });
}

// Of each text of a pair that is opened the first mark is brought into sight, with the lines before it.
function bringMarks(event) {
  for (const text of event.target.querySelectorAll(".two > div")) {
    const mark = text.querySelector("mark, .at");
    if (mark) text.scrollTop += mark.getBoundingClientRect().top - text.getBoundingClientRect().top - text.clientHeight / 3;
  }
}

function goToHash() {
  const found = pairs.findIndex(pair => "#" + pair.id === location.hash);
  if (found >= 0) go(found, true);
}

function onKey(event) {
  if (event.ctrlKey || event.altKey || event.metaKey) return;
  const held = pairs.indexOf(document.activeElement.closest("details"));
  if (held >= 0) at = held;
  if (event.key === "n") go(at + 1, true);
  else if (event.key === "p") go(at - 1, true);
  else if (event.key === "Escape") pairs.forEach(pair => { pair.open = false; });
  else return;
  event.preventDefault();
}

addEventListener("DOMContentLoaded", () => {
  pairs = [...document.querySelectorAll("details")];
  addEventListener("toggle", bringMarks, true);
  addEventListener("hashchange", goToHash);
  addEventListener("keydown", onKey);
  // On paper nothing can be opened: few pairs are printed whole, of many those that are open.
  addEventListener("beforeprint", () => { if (pairs.length <= 50) pairs.forEach(pair => { pair.open = true; }); });
  goToHash();
});

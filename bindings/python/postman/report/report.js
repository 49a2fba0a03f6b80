"use strict";
// A step shows its arrow in the picture, and an arrow its step.
{
  const rows = new Map();
  for (const row of document.querySelectorAll(".steps tr[data-step]")) rows.set(Number(row.dataset.step), row);
  const arrows = new Map();
  for (const arrow of document.querySelectorAll("#drive .pass[data-step]")) {
    const last = Number(arrow.dataset.last || arrow.dataset.step);
    // An arrow that stands for several passes of one street stands for those alone.
    for (let step = Number(arrow.dataset.step); step <= last; step++) {
      const row = rows.get(step);
      if (row && row.dataset.arc === arrow.dataset.arc) arrows.set(step, arrow);
    }
  }
  let shown = [];
  const show = (step, scroll) => {
    for (const element of shown) element.classList.remove("shown");
    shown = [rows.get(step), arrows.get(step)].filter(Boolean);
    for (const element of shown) element.classList.add("shown");
    const arrow = arrows.get(step);
    if (arrow && !scroll) arrow.parentNode.appendChild(arrow);
    if (scroll && rows.has(step)) rows.get(step).scrollIntoView({ block: "nearest" });
  };
  for (const [step, row] of rows) {
    row.addEventListener("mouseenter", () => show(step, false));
    row.addEventListener("focus", () => show(step, false));
  }
  for (const [step, arrow] of arrows) {
    if (Number(arrow.dataset.step) !== step) continue;
    arrow.addEventListener("mouseenter", () => show(step, true));
    arrow.addEventListener("click", () => {
      show(step, true);
      rows.get(step).focus({ preventScroll: true });
    });
  }
}

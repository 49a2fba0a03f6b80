"use strict";
// The page of a desk. What is on the desk is held by the server: the page shows its state and sends what the editor does.

const $ = (id) => document.getElementById(id);
let state = null;
let selected = null;
let shownView = "drive";

// Talking to the server: one request after the other.

let line = Promise.resolve();

function send(action, fields) {
  const done = line.then(async () => {
    const options = { method: "POST", headers: { "Content-Type": "application/json" }, body: JSON.stringify(fields) };
    const answer = await fetch(action, options);
    const value = await answer.json();
    return { status: answer.status, value };
  });
  line = done.catch(() => undefined);
  return done;
}

async function act(action, fields) {
  try {
    const { status, value } = await send(action, fields);
    if (status !== 200) {
      say(value.error);
      return { status, value };
    }
    say("");
    show(value);
    return { status, value };
  } catch {
    say("The desk does not answer. Is it still running?");
    return { status: 0, value: {} };
  }
}

function say(words) {
  $("message").textContent = words;
}

// Pictures: only the last one that was asked for matters.

let drawn = "";
let drawing = false;
let again = false;

async function draw() {
  if (drawing) {
    again = true;
    return;
  }
  drawing = true;
  $("stage").classList.add("stale");
  do {
    again = false;
    try {
      const answer = await fetch(`picture?view=${shownView}`);
      const { serial, svg } = await answer.json();
      if (svg !== drawn) {
        const parsed = new DOMParser().parseFromString(svg, "image/svg+xml").documentElement;
        $("stage").replaceChildren(document.importNode(parsed, true));
        drawn = svg;
      }
      $("stage").dataset.serial = serial;
    } catch {
      say("The desk does not answer. Is it still running?");
    }
  } while (again);
  drawing = false;
  $("stage").classList.remove("stale");
  highlight();
}

// Showing the state.

const numbers = (value) => value.toLocaleString("en");
const moved = (value) => (value === 0 ? "as before" : (value > 0 ? "+" : "−") + numbers(Math.abs(value)));

function element(tag, words, ...classes) {
  const made = document.createElement(tag);
  if (words !== undefined) made.textContent = words;
  made.classList.add(...classes.filter(Boolean));
  return made;
}

function show(next) {
  const first = state === null;
  state = next;
  document.body.dataset.serial = state.serial;
  document.title = `${state.title}: desk`;
  $("title").textContent = state.title;
  showResult();
  showStreets();
  showSteps();
  showMarks();
  showDay();
  showCars();
  showSelected();
  const budgets = [...$("budget").options].map((option) => Number(option.value));
  if (!budgets.includes(state.budget)) $("budget").add(new Option(`${numbers(state.budget)} trees`, state.budget));
  $("budget").value = String(state.budget);
  if (first || !$("name").value) $("name").value = state.save;
  draw();
}

function showResult() {
  const { result, changed } = state;
  const refused = result.refusal !== undefined;
  document.querySelector(".answer").classList.toggle("refused", refused);
  $("cost").textContent = refused ? "–" : numbers(result.cost);
  $("floor").textContent = refused ? "–" : numbers(result.floor);
  $("gap").textContent = refused ? "–" : result.gap;
  $("cost-moved").textContent = changed ? moved(changed.cost) : "";
  $("floor-moved").textContent = changed ? moved(changed.floor) : "";
  const refusal = `Refused (${result.refusal}, ${result.word}): ${result.sentence}`;
  $("meaning").textContent = refused ? refusal : result.meaning;
  $("changed").textContent = changed ? driven(changed) : "";
  const all = result.whole ? "and these are all" : "and not all";
  $("trees").textContent = refused ? "" : `${numbers(result.trees)} trees were tried, ${all}.`;
}

function driven(changed) {
  const few = (names) => names.slice(0, 5).join(", ") + (names.length > 5 ? ` and ${names.length - 5} more` : "");
  const words = [];
  if (changed.more.length) words.push(`Driven more often: ${few(changed.more)}.`);
  if (changed.less.length) words.push(`Less often: ${few(changed.less)}.`);
  return words.join(" ");
}

function showStreets() {
  const wanted = $("filter").value.trim().toLowerCase();
  const rows = [];
  for (const street of state.streets) {
    const text = `${street.name} ${street.from} ${street.to}`.toLowerCase();
    if (wanted && !text.includes(wanted)) continue;
    const row = element("tr");
    row.dataset.arc = street.arc;
    row.tabIndex = -1;
    row.classList.toggle("edited", street.changed);
    const name = element("td");
    name.append(element("span", street.name, "street"), element("span", `${street.from} → ${street.to}`, "ends"));
    const standing = element("td", street.shut ? "shut" : street.standing, street.shut ? "shut" : street.standing);
    const checking = street.checking === null ? "" : ` / ${numbers(street.checking)}`;
    const cost = numbers(street.cost) + checking;
    row.append(name, standing, element("td", cost, "number"), element("td", street.passes || "", "number"));
    rows.push(row);
  }
  $("streets").tBodies[0].replaceChildren(...rows);
  roving();
}

// One row of the list can be reached by the tab key; arrows move on from it.
function roving() {
  const rows = [...$("streets").tBodies[0].rows];
  const current = rows.find((row) => Number(row.dataset.arc) === selected) || rows[0];
  if (current) current.tabIndex = 0;
}

function showSteps() {
  const steps = state.result.steps || [];
  $("steps").tBodies[0].replaceChildren(...steps.map((step) => {
    const row = element("tr");
    row.dataset.arc = step.arc;
    row.dataset.step = step.step;
    const name = element("td");
    name.append(element("span", step.name, "street"), element("span", `${step.from} → ${step.to}`, "ends"));
    const [number, cost] = [element("td", step.step, "number"), element("td", numbers(step.cost), "number")];
    row.append(number, name, element("td", step.does, step.purpose), cost);
    return row;
  }));
}

function showMarks() {
  $("marks").replaceChildren(...state.marks.map((mark, number) => {
    const row = element("div", undefined, "mark");
    const set = element("button", "Set");
    const back = element("button", "Return");
    set.dataset.mark = back.dataset.back = number;
    set.setAttribute("aria-label", `Set mark ${number}`);
    back.setAttribute("aria-label", `Return to mark ${number}`);
    back.disabled = mark === null;
    let said = "not set";
    if (mark !== null) said = mark.refusal !== undefined ? `refused, ${mark.word}` : `cost ${numbers(mark.cost)}`;
    row.append(element("span", `mark ${number}`), set, back, element("span", said));
    return row;
  }));
}

const clock = (minute) => `${String(Math.floor(minute / 60)).padStart(2, "0")}:${String(minute % 60).padStart(2, "0")}`;

function showDay() {
  $("day").hidden = !state.windows;
  $("no-windows").hidden = state.windows;
  // While the slider moves it shows where it is, and not where it was.
  if (document.activeElement !== $("minute") || !sliding) {
    $("weekday").value = state.departure ? String(state.departure.weekday) : "";
    if (state.departure) $("minute").value = state.departure.minute;
  }
  $("minute").disabled = !state.departure;
  $("clock").textContent = state.departure ? clock(Number($("minute").value)) : "";
}

function showCars() {
  for (const view of ["first-car", "second-car"]) {
    document.querySelector(`[data-view="${view}"]`).hidden = state.cars === null;
  }
  if (state.cars === null) {
    $("cars").replaceChildren(element("p", "Paint streets by clicking, or have the must streets shared out.", "soft"));
    if (shownView.endsWith("-car")) choose("cars");
    return;
  }
  $("cars").replaceChildren(...state.cars.map((car, number) => {
    const row = element("div", undefined, "car");
    row.append(element("strong", number === 0 ? "First car" : "Second car"), element("span", `${car.marks} marked`));
    const words = car.refusal !== undefined
      ? `Refused (${car.refusal}, ${car.word}): ${car.sentence}`
      : `cost ${numbers(car.cost)}, floor ${numbers(car.floor)}, gap ${car.gap}`;
    row.append(element("span", words, "soft"));
    return row;
  }));
}

function showSelected() {
  const street = state.streets[selected];
  $("street").hidden = !street;
  if (!street) return;
  $("street-title").textContent = street.name;
  $("street-ends").textContent = `${street.from} → ${street.to}${street.shut ? ", shut at this departure" : ""}`;
  for (const button of document.querySelectorAll("[data-standing]")) {
    button.setAttribute("aria-pressed", String(button.dataset.standing === street.standing));
  }
  $("street-cost").value = street.cost;
  $("checking-field").hidden = street.checking === null;
  $("street-checking").value = street.checking === null ? "" : street.checking;
  $("street-was").textContent = street.changed ? `In the file: ${street.was}.` : "";
}

function highlight() {
  for (const shown of document.querySelectorAll(".shown")) shown.classList.remove("shown");
  if (selected === null) return;
  const places = ["#stage", "#streets", "#steps"].map((place) => `${place} [data-arc="${selected}"]`).join(", ");
  for (const found of document.querySelectorAll(places)) {
    found.classList.add("shown");
    if (found.closest("#stage")) found.parentNode.appendChild(found);
  }
}

function select(arc, scroll) {
  selected = arc;
  showSelected();
  for (const row of $("streets").tBodies[0].rows) row.tabIndex = -1;
  roving();
  highlight();
  if (!scroll) return;
  for (const [box, table] of [["streets-box", "streets"], ["steps-box", "steps"]]) {
    const row = document.querySelector(`#${table} [data-arc="${arc}"]`);
    if (row) $(box).scrollTop = row.offsetTop - $(box).clientHeight / 2;
  }
}

function choose(view) {
  shownView = view;
  for (const tab of document.querySelectorAll("[data-view]")) {
    tab.setAttribute("aria-selected", String(tab.dataset.view === view));
  }
  // Painting is what the picture of two cars is for.
  if (view === "cars" && !$("tool").value.startsWith("car-")) $("tool").value = "car-0";
  if (view !== "cars" && $("tool").value.startsWith("car-")) $("tool").value = "select";
  draw();
}

// Doing.

const back = () => $("both").checked;

function toggleClosed(arc) {
  return act("change", { arc, standing: state.streets[arc].standing === "closed" ? "open" : "closed", back: back() });
}

function toggleMust(arc) {
  return act("change", { arc, standing: state.streets[arc].standing === "must" ? "may" : "must", back: back() });
}

function use(arc) {
  const tool = $("tool").value;
  if (tool === "close") toggleClosed(arc);
  if (tool === "must") toggleMust(arc);
  if (tool.startsWith("car-")) act("paint", { car: Number(tool.slice(4)), arc, back: back() });
}

$("stage").addEventListener("click", (event) => {
  const found = event.target.closest("[data-arc]");
  if (!found) return;
  const arc = Number(found.dataset.arc);
  select(arc, true);
  use(arc);
});

for (const table of ["streets", "steps"]) {
  $(table).tBodies[0].addEventListener("click", (event) => {
    const row = event.target.closest("tr");
    if (row) select(Number(row.dataset.arc), false);
  });
}

$("streets").tBodies[0].addEventListener("keydown", (event) => {
  const step = { ArrowDown: 1, ArrowUp: -1 }[event.key];
  if (!step) return;
  event.preventDefault();
  const rows = [...$("streets").tBodies[0].rows];
  const next = rows[rows.indexOf(event.target.closest("tr")) + step];
  if (next) {
    select(Number(next.dataset.arc), false);
    next.focus();
  }
});
$("streets").tBodies[0].addEventListener("focusin", (event) => {
  const arc = Number(event.target.closest("tr").dataset.arc);
  if (arc !== selected) select(arc, false);
});

$("street").addEventListener("click", (event) => {
  const standing = event.target.dataset.standing;
  if (standing && selected !== null) act("change", { arc: selected, standing, back: back() });
});

const whole = (text) => (/^\d{1,5}$/.test(text.trim()) ? Number(text) : null);

$("street").addEventListener("submit", (event) => {
  event.preventDefault();
  if (selected === null) return;
  const street = state.streets[selected];
  const fields = { arc: selected, cost: whole($("street-cost").value), back: back() };
  if (street.checking !== null) fields.checking = whole($("street-checking").value);
  if (fields.cost === null || fields.checking === null) {
    say("A cost is a whole number from 0 to 65535.");
    return;
  }
  act("change", fields);
});

$("marks").addEventListener("click", (event) => {
  const { mark, back: to } = event.target.dataset;
  if (mark !== undefined) act("mark", { mark: Number(mark) });
  if (to !== undefined) act("return", { mark: Number(to) });
});

// The slider asks as it moves; of what it passes while an answer is on its way only the last place is asked.

let sliding = false;
let place = null;

async function slide() {
  place = { weekday: Number($("weekday").value), minute: Number($("minute").value) };
  $("clock").textContent = clock(place.minute);
  if (sliding) return;
  sliding = true;
  while (place) {
    const next = place;
    place = null;
    await act("depart", next);
  }
  sliding = false;
}

$("minute").addEventListener("input", slide);
$("weekday").addEventListener("change", () => {
  const weekday = $("weekday").value;
  if (weekday === "") act("depart", {});
  else act("depart", { weekday: Number(weekday), minute: Number($("minute").value) });
});

$("share").addEventListener("click", () => act("share", {}).then(() => choose("cars")));
$("clear").addEventListener("click", () => act("clear", {}));
$("budget").addEventListener("change", () => act("budget", { budget: Number($("budget").value) }));
$("filter").addEventListener("input", () => { showStreets(); highlight(); });

$("judge").addEventListener("submit", async (event) => {
  event.preventDefault();
  const { status, value } = await act("judge", { text: $("judged").value });
  $("verdict").textContent = status === 200 ? value.said : value.error || "";
  say("");
});
$("own").addEventListener("click", () => {
  $("judged").value = (state.result.steps || []).map((step) => step.arc).join("\n");
});

$("save").addEventListener("submit", async (event) => {
  event.preventDefault();
  const name = $("name").value.trim();
  let { status, value } = await act("save", { name, over: false });
  if (status === 409) {
    say("");
    $("ask-words").textContent = `${value.error}. Write over?`;
    $("ask").returnValue = "no";
    $("ask").showModal();
    await new Promise((closed) => $("ask").addEventListener("close", closed, { once: true }));
    if ($("ask").returnValue !== "yes") {
      $("saved").textContent = "Nothing was written.";
      return;
    }
    ({ status, value } = await act("save", { name, over: true }));
  }
  $("saved").textContent = status === 200 ? value.said : value.error || "";
  say("");
});

for (const tab of document.querySelectorAll("[data-view]")) {
  tab.addEventListener("click", () => choose(tab.dataset.view));
}

document.addEventListener("keydown", (event) => {
  const writing = "input:not([type=checkbox]):not([type=range]), textarea, select, dialog";
  if (event.ctrlKey || event.metaKey || event.altKey || event.target.closest(writing)) return;
  const digit = /^Digit([0-3])$/.exec(event.code);
  if (digit) {
    event.preventDefault();
    act(event.shiftKey ? "mark" : "return", { mark: Number(digit[1]) });
    return;
  }
  const views = { d: "drive", t: "town", p: "cars" };
  const key = event.key.toLowerCase();
  if (views[key]) document.querySelector(`[data-view="${views[key]}"]`).click();
  else if (key === "/") $("filter").focus();
  else if (key === "b") $("both").checked = !$("both").checked;
  else if (selected !== null && key === "c") toggleClosed(selected);
  else if (selected !== null && key === "m") toggleMust(selected);
  else if (selected !== null && key === "e") $("street-cost").select();
  else return;
  event.preventDefault();
});

fetch("state").then((answer) => answer.json()).then(show).catch(() => say("The desk does not answer. Is it still running?"));

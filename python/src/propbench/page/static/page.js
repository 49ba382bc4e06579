// The page: asks the server, and shows what it answers. What a session says is always set as text.

import { Drawing } from "./drawing.js";
import { PlanView } from "./plan.js";
import { byName, joined, made, named, printable, tell } from "./texts.js";

const at = (id) => document.getElementById(id);
// So often, in milliseconds, it is looked whether something changed elsewhere.
const EVERY = 1500;
// So many rows the table of cells has at the most.
const ROWS = 200;
// Of more premises than this one looks for some; those of a plan stand in these groups.
const FEW = 12;
const OTHERS = "Others";
const GROUPS = ["Wishes", "Absences", "People and resources", "How far it is", "Tasks", OTHERS];

// What is said where there is no cell.
const EMPTY = "There is nothing yet. Open “The plain lines” below, and send a line: “cell x span”"
  + " makes a number x, “tell me x 3..5” says what you know of it, “why x” asks what follows.";
const EMPTY_WORKBENCH = "There is nothing yet: make a cell in Python, as w.number(\"x\", 0, 9), and"
  + " load this page anew.";

let state = null;
let picked = null;
let bears = null;
// What is seen in steps: the frames so far, and the one that is shown, -1 where it is what follows.
let frames = [];
let frame = -1;
let rows = new Map();
// The cells and uses that are drawn, and of a plan the task or cell around which.
let drawn = "";
let around = "";

const drawing = new Drawing(at("drawing"), at("sheet"), at("under"), pick);
at("drawing").addEventListener("here", (event) => {
  const shown = values().get(event.detail);
  say([named(textOf(event.detail)), ...(shown ? [" = ", named(shown.text)] : [])]);
});

// --- asking ---

async function ask(path, body) {
  const answer = body === null ? await fetch("state") : await fetch(path, {
    method: "POST",
    headers: { "Content-Type": "application/json" },
    body: JSON.stringify(body),
  });
  const told = await answer.json();
  if (told.error) throw new Error(told.error);
  if (!answer.ok) throw new Error(`the server refused this (${answer.status})`);
  return told;
}

// Asks, or looks at all where there is no question; what is wrong is told on the page, or to who
// asks, and nothing is given then.
async function asked(body, wrong = (text) => say(text, true)) {
  const since = setTimeout(() => { at("stop").hidden = false; }, 300);
  try {
    return await ask("do", body);
  } catch (error) {
    wrong(error.message);
    return undefined;
  } finally {
    clearTimeout(since);
    at("stop").hidden = true;
    at("busy").textContent = "";
  }
}

// Says a text, or parts of one.
function say(said, wrong = false) {
  tell(at("status"), ...[said].flat());
  at("status").classList.toggle("wrong", wrong);
}

async function load() {
  const told = await asked(null);
  if (told) take(told);
}

// Takes in what was answered: all of it, or what changed.
function take(told) {
  const before = state?.byCell;
  const stood = state?.stands;
  if (state && !told.network && told.shape !== state.shape) return load();
  const isNew = !state || told.shape !== state.shape;
  state = { ...(state ?? {}), ...told };
  state.byCell = new Map(state.seen.values.map((each) => [each.cell, each]));
  state.stands = byName(state.seen.plan);
  if (isNew) build();
  frame = -1;
  frames = [];
  const differs = ([name, shown]) => before?.has(name) && before.get(name).text !== shown.text;
  const changed = new Set([...state.byCell].filter(differs).map(([name]) => name));
  show(changed);
  if (picked) look(picked);
  if (before && !state.plan) sayWhatChanged(changed, stood);
  plan.show(state);
}

function sayWhatChanged(changed, stood) {
  if (state.seen.clash) return say("Conflict: what is believed can't all hold.", true);
  const { stands } = state;
  const moved = state.network.choices.filter(
    ({ name }) => stood?.has(name) && stood.get(name) !== stands.get(name));
  const parts = moved.map(
    (each) => [named(each.text), ": ", named(each.sides[stands.get(each.name)] ?? "?")]);
  const known = values();
  for (const name of [...changed].slice(0, 3)) {
    parts.push([named(textOf(name)), " = ", named(known.get(name).text)]);
  }
  if (changed.size > 3) parts.push([`and ${changed.size - 3} more`]);
  say(parts.flatMap((part, place) => (place ? [", ", ...part] : part)));
  if (!parts.length) say("No value changed.");
}

const textOf = (name) => state.texts.get(name) ?? name;

// What is shown of each cell: what follows, or what is known after a step.
function values() {
  if (frame < 0) return state.byCell;
  const known = new Map();
  for (const each of frames.slice(0, frame + 1)) {
    for (const { cell, after, because } of each.changes) {
      known.set(cell, { text: after, because, settled: true, known: true });
    }
  }
  return known;
}

// --- building what stays ---

function build() {
  const { network } = state;
  state.texts = new Map(network.cells.map((each) => [each.name, each.text]));
  tell(at("title"), named(state.title));
  document.title = `${printable(state.title)} - propbench`;
  at("proved").textContent = state.proved ? "proved" : "not known to be proved";
  at("proved").classList.toggle("unproved", !state.proved);
  at("save").hidden = state.file === null || Boolean(state.plan);
  at("line-form").hidden = state.workbench;
  at("empty").hidden = network.cells.length > 0;
  at("empty").textContent = state.workbench ? EMPTY_WORKBENCH : EMPTY;
  at("premises").replaceChildren(...grouped(network.premises));
  at("premise-search").hidden = network.premises.length < FEW && !state.plan;
  filterPremises();
  at("choices").replaceChildren(...network.choices.map(choice));
  at("choices-head").hidden = !network.choices.length;
  showRows();
  draw();
  if (!state.texts.has(picked)) unpick();
}

// Draws the network: of a plan what is around a task or a cell, unless all of it is wanted.
function draw() {
  const { network } = state;
  const isPart = state.plan && !at("whole").checked;
  const part = isPart ? neighbours(network, centre()) : network;
  const now = JSON.stringify([part.cells, part.uses]);
  if (drawn !== now) drawing.draw(part, isPart ? centre()[0] : "");
  drawn = now;
}

// The cells around which the network is drawn, and what there is to choose of.
function centre() {
  const tasks = state.plan.cells;
  const names = Object.keys(tasks);
  if (!Object.hasOwn(tasks, around) && !state.texts.has(around)) around = names[0] ?? "";
  const options = Object.hasOwn(tasks, around) ? names : [around, ...names];
  at("around").replaceChildren(...options.map((name) => {
    const option = made("option", { value: name }, named(name));
    option.selected = name === around;
    return option;
  }));
  at("around-what").hidden = false;
  return Object.hasOwn(tasks, around) ? tasks[around] : [around];
}

// The part of a network that has these cells, what is between them and others, and these.
function neighbours(network, names) {
  const own = new Set(names);
  const uses = network.uses.filter((use) => use.cells.some((cell) => own.has(cell)));
  const near = new Set([...names, ...uses.flatMap((use) => use.cells)]);
  return { ...network, cells: network.cells.filter((cell) => near.has(cell.name)), uses };
}

function goAround(name) {
  around = name;
  if (!state.plan) return;
  draw();
  show(new Set());
}

// Premises one below the other, those of a plan in groups.
function grouped(premises) {
  const groups = new Map(GROUPS.map((name) => [name, []]));
  const of = state.plan ? byName(state.plan.groups) : new Map();
  for (const each of premises) groups.get(of.get(each.name) ?? OTHERS).push(premise(each));
  return [...groups].flatMap(([name, items]) => {
    const says = made("h3", { class: "premise-group" }, name);
    const head = made("li", { class: "premise-group" }, says);
    return items.length ? [...(state.plan ? [head] : []), ...items] : [];
  });
}

// Shows those premises alone in which what is looked for stands.
function filterPremises() {
  const wanted = at("premise-filter").value.toLowerCase();
  let head = null;
  for (const item of at("premises").children) {
    if (item.dataset.premise === undefined) {
      head = item;
      item.hidden = true;
    } else {
      item.hidden = !item.textContent.toLowerCase().includes(wanted);
      if (!item.hidden && head) head.hidden = false;
    }
  }
}

function premise(each) {
  const box = made("input", { type: "checkbox", id: `premise ${each.name}` });
  box.addEventListener("change", async () => {
    const told = await asked({ what: "believe", premise: each.name, believed: box.checked });
    if (told) take(told);
    else await load();
  });
  const texts = each.says.map((said) => said.text);
  const own = state.plan && byName(state.plan.says).get(each.name);
  const says = own === undefined || own === null ? stated(texts) : [own];
  const label = made("label", { for: box.id }, named(each.text));
  const item = made("li", { class: "premise" }, box, label, made("small", {}, ...says));
  item.dataset.premise = each.name;
  return item;
}

const stated = (texts) => (texts.length ? joined(texts, "; ") : ["(nothing)"]);

function choice(each) {
  const sides = ["as it comes", ...each.sides.map(named)].map((text, place) => {
    const id = `choice ${place} ${each.name}`;
    const button = made("input", { type: "radio", name: `choice ${each.name}`, id });
    button.addEventListener("change", async () => {
      const side = place ? place - 1 : null;
      const told = await asked({ what: "wish", choice: each.name, side });
      if (told) take(told);
      else await load();
    });
    return made("div", { class: "side" }, button, made("label", { for: button.id }, text));
  });
  const set = made("fieldset", { class: "choice" }, made("legend", {}, named(each.text)), ...sides);
  set.dataset.choice = each.name;
  return set;
}

function row(each) {
  const button = made("button", { type: "button" }, named(each.text));
  button.addEventListener("click", () => pick(each.name));
  const value = made("td", {});
  const because = made("td", {});
  const line = made("tr", {}, made("th", { scope: "row" }, button), value, because);
  line.dataset.cell = each.name;
  return { row: line, button, value, because, said: "[]", reasons: "[]" };
}

// Makes the rows of the cells whose names have what is looked for: the first of them, where there
// are very many, and that of the cell that was picked.
function showRows() {
  const wanted = at("filter").value.toLowerCase();
  const found = state.network.cells.filter((each) => each.text.toLowerCase().includes(wanted));
  const shown = found.slice(0, ROWS);
  const own = found.slice(ROWS).find((each) => each.name === picked);
  if (own) shown.unshift(own);
  rows = new Map(shown.map((each) => [each.name, row(each)]));
  at("cells").replaceChildren(...[...rows.values()].map((each) => each.row));
  const left = found.length - shown.length;
  at("more").textContent = left ? `and ${left} more: look for a name` : "";
}

// --- showing what changes ---

function show(changed) {
  const texts = new Map();
  for (const [name, shown] of values()) texts.set(name, shown.known ? shown.text : "");
  drawing.show(texts, changed, new Set(state.believed), frames[frame]?.use);
  showValues(changed);
  at("unsettled").hidden = state.seen.settled || frame >= 0;
  showSwitches();
  showClash();
  showLines();
  showStep();
}

// Shows the values in the table.
function showValues(changed) {
  const known = values();
  const lit = new Set(bears?.cells);
  for (const [name, each] of rows) {
    const shown = known.get(name);
    const said = shown ? [named(shown.text), ...(shown.settled ? [] : [" (not settled)"])] : [];
    each.said = retold(each.value, said, each.said);
    each.reasons = retold(each.because, shown ? reasonsOf(shown) : [], each.reasons);
    each.row.classList.toggle("changed", changed.has(name));
    each.row.classList.toggle("lit", lit.has(name));
    each.row.classList.toggle("picked", name === picked);
  }
}

// Has a node say parts, where these are others than before; gives what it says then.
function retold(node, parts, before) {
  const text = JSON.stringify(parts.map((part) => part.textContent ?? part));
  if (text !== before) tell(node, ...parts);
  return text;
}

function reasonsOf(shown) {
  const parts = joined(shown.because, ", ");
  if (shown.more) parts.push(` and ${shown.more} more`);
  return parts.length ? parts : ["what always holds"];
}

function showSwitches() {
  const believed = new Set(state.believed);
  const clash = new Set(state.seen.clash?.premises);
  const lit = new Set(bears?.premises);
  const litChoices = new Set(bears?.choices);
  const wishes = byName(state.wished);
  for (const item of at("premises").querySelectorAll("li.premise")) {
    const name = item.dataset.premise;
    item.querySelector("input").checked = believed.has(name);
    item.classList.toggle("out", !believed.has(name));
    item.classList.toggle("clashes", clash.has(name));
    item.classList.toggle("lit", lit.has(name));
  }
  for (const set of at("choices").children) {
    const name = set.dataset.choice;
    const stands = state.stands.get(name);
    const wished = wishes.get(name);
    set.classList.toggle("lit", litChoices.has(name));
    set.querySelectorAll(".side").forEach((side, place) => {
      side.querySelector("input").checked = place === (wished === undefined ? 0 : wished + 1);
      const isHere = stands !== undefined && place === stands + 1;
      side.querySelector("label").classList.toggle("stands", isHere);
    });
  }
}

function showLines() {
  if (!at("plain").open) return;
  tell(at("lines"), (state.lines ?? []).join("\n"));
}

// --- a cell ---

async function pick(name) {
  picked = name;
  if (state.plan && !at("whole").checked) goAround(name);
  await look(name);
}

async function look(name) {
  drawing.picked(name);
  if (!rows.has(name)) {
    showRows();
    showValues(new Set());
  }
  for (const [other, each] of rows) each.row.classList.toggle("picked", other === name);
  at("cell").hidden = false;
  tell(at("cell-name"), named(textOf(name)));
  at("cell-core").textContent = "";
  at("best").replaceChildren();
  const known = values().get(name);
  const clashes = state.seen.clash && frame < 0;
  const nothing = clashes ? "no value while there is a conflict" : "nothing is known";
  tell(at("cell-value"), known ? named(known.text) : nothing);
  tell(at("cell-because"), ...(known ? ["because of ", ...reasonsOf(known)] : []));
  bears = null;
  let how = "";
  let all = "";
  if (frame < 0 && !state.seen.clash) {
    const told = await asked({ what: "cell", cell: name });
    if (told === undefined || picked !== name) return;
    bears = told.bears;
    ({ how, whole: all } = told);
    if (told.shown) tell(at("cell-because"), "because of ", ...reasonsOf(told.shown));
  }
  at("how").hidden = !how;
  tell(at("cell-how"), how);
  at("whole-how").hidden = !all;
  at("whole-how").open = false;
  tell(at("cell-whole"), all);
  const kind = state.network.cells.find((each) => each.name === name).kind;
  at("least").hidden = at("greatest").hidden = !["span", "a number"].includes(kind);
  drawing.light(bears);
  const lit = new Set(bears?.cells);
  for (const [other, each] of rows) each.row.classList.toggle("lit", lit.has(other));
  at("unlit").hidden = false;
  showSwitches();
}

function unpick() {
  picked = bears = null;
  at("cell").hidden = true;
  at("unlit").hidden = true;
  drawing.picked("");
  drawing.light(null);
  for (const each of rows.values()) each.row.classList.remove("picked", "lit");
  if (state) showSwitches();
}

async function core() {
  const name = picked;
  const told = await asked({ what: "core", cell: name });
  if (!told || picked !== name) return;
  const { shown } = told;
  let parts = ["What is believed can't all hold."];
  if (shown?.reduced) parts = ["None can be left out of: ", ...reasonsOf(shown)];
  else if (shown) parts = ["So far: ", ...reasonsOf(shown), " (maybe too many)"];
  tell(at("cell-core"), ...parts);
}

async function best(sort) {
  const name = picked;
  const told = await asked({ what: "best", cell: name, sort });
  if (!told || picked !== name) return;
  const lines = told.plan.map(([cell, value]) =>
    made("tr", {}, made("th", { scope: "row" }, named(cell)), made("td", {}, named(value))));
  const plan = made("table", {}, made("tbody", {}, ...lines));
  const says = lines.length ? [plan, made("p", {}, told.says)] : [];
  at("best").replaceChildren(made("p", {}, told.text), ...says);
}

// --- a conflict ---

let mendedAt = 0;

async function showClash() {
  const clash = state.seen.clash;
  at("clash").hidden = !clash || frame >= 0;
  if (!clash) return;
  const stated = byName(clash.says);
  const says = clash.premises.map(
    (name) => made("li", {}, named(name), ": ", named(stated.get(name) ?? "")));
  const text = clash.text ? [made("p", {}, clash.text)] : [];
  at("clash-says").replaceChildren(...text, made("ul", {}, ...says));
  if (mendedAt === state.version) return;
  mendedAt = state.version;
  at("mending").replaceChildren(made("p", {}, "Looking for what to give up."));
  const told = await asked({ what: "mend" });
  if (told && mendedAt === state.version) showMending(told);
}

function showMending(told) {
  const conflicts = told.conflicts.map(
    (each) => made("li", {}, ...(each.length ? joined(each, ", ") : ["what always holds"])));
  const repairs = told.repairs.map((premises) => {
    const tried = made("p", { class: "tried" });
    const attempt = made("button", { type: "button" }, "Try");
    attempt.addEventListener("click", async () => {
      const seen = (await asked({ what: "try", premises }))?.seen;
      if (!seen) return;
      const some = seen.values.slice(0, 40).flatMap(
        (each, place) => [place ? ", " : "", named(textOf(each.cell)), " = ", named(each.text)]);
      tell(tried, ...(seen.clash ? ["Still a conflict."] : some));
    });
    const apply = made("button", { type: "button" }, "Apply");
    apply.addEventListener("click", async () => {
      const found = await asked({ what: "apply", premises });
      if (found) take(found);
    });
    const name = made("span", {}, "give up ", ...joined(premises, " and "));
    return made("div", {}, made("div", { class: "repair" }, name, attempt, apply), tried);
  });
  const none = "Nothing that is believed can be given up to mend this.";
  at("mending").replaceChildren(
    made("h3", {}, conflicts.length === 1 ? "The conflict, made minimal" : "The minimal conflicts"),
    made("ul", {}, ...conflicts),
    made("h3", {}, "Repairs"),
    ...repairs,
    made("p", {}, repairs.length ? told.says : none),
    ...(told.complete ? [] : [made("p", {}, "There may be others.")]));
}

// --- steps ---

async function goTo(number) {
  if (number >= frames.length && !(frames.length && frames[frames.length - 1].end)) {
    const told = await asked({ what: "steps", from: frames.length, to: number });
    if (!told) return;
    frames.push(...told.frames);
  }
  if (!frames.length) return;
  frame = Math.max(0, Math.min(number, frames.length - 1));
  show(new Set(frames[frame].changes.map((each) => each.cell)));
  if (picked) look(picked);
}

async function toEnd() {
  let before = -1;
  while (before < frames.length && !(frames.length && frames[frames.length - 1].end)) {
    before = frames.length;
    await goTo(frames.length + 199);
  }
  await goTo(frames.length - 1);
}

function now() {
  frame = -1;
  show(new Set());
  say("What follows now.");
  if (picked) look(picked);
}

function showStep() {
  const on = frame >= 0;
  const shown = on ? frames[frame] : null;
  at("now").hidden = !on;
  at("first").disabled = frame === 0;
  at("back").disabled = frame <= 0;
  at("forward").disabled = at("last").disabled = Boolean(shown?.end);
  const end = shown?.end ? `, the end: ${shown.end}` : "";
  at("step").textContent = on ? `step ${frame}${end}` : "steps";
  at("changes").hidden = !on;
  if (!on) return;
  const changes = shown.changes.map((each) => {
    const before = frame && each.before ? [named(each.before), " \u2192 "] : [];
    const reasons = each.because.length ? [" because of ", ...joined(each.because, ", ")] : [];
    return made(
      "li", {}, named(textOf(each.cell)), ": ", ...before, named(each.after), ...reasons);
  });
  const nogoods = shown.nogoods.map(
    (each) => made("li", { class: "wrong" }, "impossible together: ", ...joined(each, ", ")));
  const what = changes.length || nogoods.length ? "changed" : "changed nothing";
  const head = frame === 0 ? "Before the first step" : `Step ${frame} ${what}`;
  const does = shown.does ? [made("p", { class: "does" }, shown.does)] : [];
  at("changes").replaceChildren(
    made("strong", {}, head), ...does, made("ul", {}, ...changes, ...nogoods));
}

// --- what is pressed ---

const press = (id, act) => at(id).addEventListener("click", act);
press("fit", () => drawing.fit(true));
press("nearer", () => drawing.zoom(1.25));
press("farther", () => drawing.zoom(0.8));
press("unlit", unpick);
press("first", () => goTo(0));
press("back", () => goTo(frame - 1));
press("forward", () => goTo(frame + 1));
press("last", toEnd);
press("now", now);
press("core", core);
press("least", () => best("least"));
press("greatest", () => best("greatest"));
press("stop", () => ask("stop", {}));
press("go-on", async () => {
  const told = await asked({ what: "look" });
  if (told) take(told);
});
// Saves, and shows why not: what somebody else has changed in the file, or that it has no name yet.
async function save(how) {
  const told = await asked({ what: "save", ...how });
  if (!told) return;
  at("save-form").hidden = told.saved !== null;
  tell(at("save-says"), told.says);
  at("difference").hidden = at("overwrite").hidden = !told.difference.length;
  const head = "- is there now, + is what you have";
  tell(at("difference"), [head, ...told.difference].join("\n"));
  if (told.saved !== null) say(`Saved to ${told.saved}.`);
  else say(told.says, true);
}
press("save", () => save({}));
press("overwrite", () => save({ overwrite: true }));
at("save-form").addEventListener("submit", (event) => {
  event.preventDefault();
  save({ as: at("save-as").value });
});
press("replay", async () => {
  const told = await asked({ what: "replay" });
  if (!told) return;
  take(told);
  const follows = told.same ? "the same follows." : "something else follows now.";
  say(`Replayed: ${follows}`, !told.same);
});
at("plain").addEventListener("toggle", async () => {
  if (at("plain").open) await freshLines();
});
at("premise-filter").addEventListener("input", filterPremises);
at("around").addEventListener("change", () => goAround(at("around").value));
at("whole").addEventListener("change", () => goAround(around));
at("filter").addEventListener("input", () => {
  showRows();
  showValues(new Set());
});
at("line-form").addEventListener("submit", async (event) => {
  event.preventDefault();
  const told = await asked({ what: "line", line: at("line").value });
  if (!told) return;
  at("reply").hidden = false;
  tell(at("reply"), told.reply);
  at("reply").classList.toggle("wrong", told.refused);
  if (!told.refused) at("line").value = "";
  take(told);
});

async function freshLines() {
  const answer = await fetch("state");
  const told = await answer.json();
  if (told.lines) state.lines = told.lines;
  showLines();
}

// Looks now and then whether something changed elsewhere, and how far a run is.
async function watch() {
  if (!document.hidden) {
    try {
      const told = await (await fetch("version")).json();
      at("busy").textContent = at("stop").hidden ? "" : told.busy;
      if (state && !told.busy && told.version > state.version) await load();
    } catch {
      say("The page's server has ended.", true);
    }
  }
  setTimeout(watch, EVERY);
}

const plan = new PlanView({
  ask: asked,
  take,
  say,
  save,
  stop: () => ask("stop", {}),
  // What follows in the network of a plan is looked at once somebody turns to it.
  look: async () => {
    const told = await asked({ what: "look" });
    if (told) take(told);
  },
  pickTask: (task) => { if (state.plan.cells[task]) goAround(task); },
});

watch();
await load();

// Forms for what is planned: a row of a table each. Names are picked by a press, numbers and days
// go up and down by one, so that nothing but a name has to be typed, and even that is proposed.

import { made, named, printable } from "./texts.js";

const DAYS = ["mon", "tue", "wed", "thu", "fri", "sat", "sun"];
const LEAST = { days: 0, holds: 1, cost: 0, left: 0, weight: 0 };
// The fields of each table, those behind "More" last.
const FIELDS = {
  tasks: [
    ["task", "Task", "name"], ["days", "Days of work", "number"], ["who", "Who does it", "who"],
    ["after", "Only after", "tasks"], null,
    ["uses", "Needs", "uses"], ["earliest", "Not before", "date"],
    ["latest", "Has to be done by", "date"], ["cost", "Cost", "number"],
    ["way", "Which way to do it", "text"], ["pauses", "Pauses over days off", "yes"],
    ["kind", "Kind, which setup times speak of", "kind"],
    ["started", "Began on", "date"], ["finished", "Was done on", "date"],
    ["left", "Days left of it today", "number"],
  ],
  people: [
    ["person", "Name", "name"], ["works", "Works on", "weekdays"], null,
    ["off", "Days off", "text"], ["skills", "Skills", "text"], ["cost", "Cost a day", "number"],
    ["weight", "What help would cost", "number"],
  ],
  things: [
    ["person", "Name", "name"], ["holds", "How many there are", "number"], null,
    ["works", "Is there on", "weekdays"], ["cost", "Cost a day", "number"],
    ["weight", "What one more would cost", "number"],
  ],
  absences: [
    ["person", "Who", "person"], ["from", "From", "date"], ["to", "To, that day included", "date"],
    ["reason", "Why", "text"], null,
    ["weight", "What it would cost to work all the same", "number"],
  ],
  wishes: [
    ["task", "Of which task", "task"], ["latest", "Done by", "date"],
    ["earliest", "Not before", "date"], null, ["cost", "Cost at most", "number"], ["wish", "Called", "text"],
    ["weight", "What it would cost to give it up", "number"],
  ],
  setups: [
    ["person", "Of whom, or of which machine", "one"],
    ["from", "Behind tasks of the kind", "kinds"], ["to", "Before tasks of the kind", "kinds"],
    ["days", "Days between", "number"], null,
    ["weight", "What it would cost to do without", "number"],
  ],
  plan: [
    ["start", "Begins on", "date"], ["off", "Days off", "off"], null, ["today", "Today is", "date"],
    ["days", "Days at most", "number"],
  ],
};
// The sections: of which table, what stands above it, and what its buttons add.
const SECTIONS = [
  ["people", "People, rooms, machines",
    [["people", "Add a person"], ["things", "Add a room or machine"]]],
  ["tasks", "Tasks", [["tasks", "Add a task"]]],
  ["absences", "Absences", [["absences", "Add an absence"]]],
  ["wishes", "Wishes", [["wishes", "Add a wish"]]],
  ["setups", "Setup times", [["setups", "Add a setup time"]]],
  ["plan", "The days", [["plan", "Say when it begins"]]],
];
const PROPOSED = { tasks: "task", people: "person", things: "room" };
const EXAMPLES = "review by 13 March; ana before 9 March; ana not on 4 March; ana away 3-7 March;"
  + " review after venue; ana does review; review and venue not at once; cost at most 5000";

const tableOf = (form) => (form === "things" ? "people" : form);
const formOf = (table, row) => (table === "people" && row.holds ? "things" : table);
const namesIn = (text) => (text ?? "").split(/\s*[,;\n&+]\s*|\s+(?:and|or)\s+/).filter((it) => it);

// A day as people read it.
function dated(text) {
  if (!/^\d{4}-\d\d-\d\d$/.test(text ?? "")) return text;
  const how = { day: "numeric", month: "short", year: "numeric", timeZone: "UTC" };
  return new Date(`${text}T12:00:00Z`).toLocaleDateString("en-GB", how);
}

function shifted(text, days, start) {
  const date = new Date(`${text || start}T12:00:00Z`);
  if (Number.isNaN(date.getTime())) return text;
  if (text) date.setUTCDate(date.getUTCDate() + days);
  return date.toISOString().slice(0, 10);
}

export class Forms {
  constructor(root, { put, drop }) {
    this.put = put;
    this.drop = drop;
    this.open = null;
    this.tables = {};
    this.sections = new Map(SECTIONS.map((each) => [each[0], this._section(...each)]));
    root.replaceChildren(...[...this.sections.values()].map((each) => each.node));
  }

  // Shows the rows of the tables; a form that is open stays.
  show(tables) {
    this.tables = tables;
    for (const [table, section] of this.sections) {
      const rows = tables[table] ?? [];
      section.list.replaceChildren(...rows.map((row, place) => this._item(table, row, place)));
      section.count.textContent = table === "plan" || !rows.length ? "" : ` (${rows.length})`;
    }
    const days = this.sections.get("plan");
    days.buttons.hidden = (tables.plan ?? []).length > 0;
  }

  // Opens the form of a task.
  openTask(name) {
    const place = (this.tables.tasks ?? []).findIndex((row) => row.task === name);
    if (place >= 0) this._open("tasks", place);
  }

  _section(table, head, adds) {
    const list = made("ul", { class: "plain rows" });
    const place = made("div", {});
    const count = made("span", { class: "count" });
    const buttons = made("p", { class: "adds" });
    for (const [form, text] of adds) {
      const button = made("button", { type: "button", id: `add-${form}` }, text);
      button.addEventListener("click", () => this._open(form, null));
      buttons.append(button);
    }
    const isOpen = table === "tasks" || table === "people";
    const node = made("details", { class: "sheet", id: `sheet-${table}`, open: isOpen },
      made("summary", {}, head, count), list, buttons, place);
    if (table === "wishes") node.append(this._words());
    return { node, list, place, count, buttons };
  }

  // What is wished for in one's own words.
  _words() {
    const input = made("input", { id: "words", autocomplete: "off", title: EXAMPLES,
      placeholder: "review by 13 March" });
    const form = made("form", { id: "words-form" },
      made("label", { for: "words" }, "In your own words"), input,
      made("button", {}, "Add"), made("p", { class: "hint" }, `As: ${EXAMPLES}`));
    form.addEventListener("submit", async (event) => {
      event.preventDefault();
      if (!input.value.trim()) return;
      if (await this.put("wishes", null, { wish: input.value })) input.value = "";
    });
    return form;
  }

  _item(table, row, place) {
    const button = made("button", { type: "button", class: "planned" }, ...this._told(table, row));
    button.addEventListener("click", () => this._open(formOf(table, row), place));
    return made("li", {}, button);
  }

  // A row in short.
  _told(table, row) {
    const after = (text, before) => (text ? `${before}${text}` : "");
    if (table === "tasks") {
      const days = row.days === "1" ? "1 day" : `${row.days ?? "?"} days`;
      const says = [days, row.who, after(row.after, "after ")].filter((it) => it).join(", ");
      return [named(row.task ?? "?"), row.way ? ` (${row.way})` : "", made("small", {}, says)];
    }
    if (table === "people") {
      const more = row.holds ? `there are ${row.holds}` : after(row.works, "works ");
      return [named(row.person ?? "?"), made("small", {}, more)];
    }
    if (table === "absences") {
      const days = `${dated(row.from)}${after(row.to === row.from ? "" : dated(row.to), " to ")}`;
      return [named(row.person ?? "?"), made("small", {}, days)];
    }
    if (table === "setups") {
      const days = row.days === "1" ? "1 day" : `${row.days ?? "?"} days`;
      return [named(row.person ?? "?"), made("small", {}, `${row.from} to ${row.to}, ${days}`)];
    }
    if (table === "wishes") {
      const ends = [after(dated(row.earliest), "from "), after(dated(row.latest), "by ")];
      const parts = [row.task, ...ends];
      return [named(row.wish ?? "?"), made("small", {}, parts.filter((it) => it).join(" "))];
    }
    const says = [`from ${dated(row.start) ?? "day 0"}`, after(row.off, "off "),
      after(dated(row.today), "today ")];
    return [says.filter((it) => it).join(", ")];
  }

  // --- a form ---

  _open(form, place) {
    this._close();
    const table = tableOf(form);
    const section = this.sections.get(table);
    const row = place === null ? this._fresh(form) : { ...this.tables[table][place] };
    this.open = { form, table, place, row, opener: document.activeElement };
    section.node.open = true;
    const at = FIELDS[form].indexOf(null);
    const first = FIELDS[form].slice(0, at).map((each) => this._field(...each));
    const others = FIELDS[form].slice(at + 1);
    const isSet = others.some(([key]) => row[key]);
    const more = made("details", { open: isSet }, made("summary", {}, "More"),
      ...others.map((each) => this._field(...each)));
    const done = made("button", { id: "row-done" }, place === null ? "Add" : "Change");
    const cancel = made("button", { type: "button", id: "row-cancel" }, "Cancel");
    cancel.addEventListener("click", () => this._close(true));
    const buttons = [done, cancel];
    if (place !== null && table !== "plan") {
      const drop = made("button", { type: "button", id: "row-drop" }, "Remove");
      drop.addEventListener("click", async () => {
        if (await this.drop(table, place)) this._close(true);
      });
      buttons.push(drop);
    }
    const node = made("form", { id: "row-form" }, ...first, more,
      made("p", { class: "adds" }, ...buttons));
    node.addEventListener("submit", (event) => {
      event.preventDefault();
      this._submit();
    });
    node.addEventListener("keydown", (event) => {
      if (event.key === "Escape") this._close(true);
    });
    section.place.replaceChildren(node);
    node.scrollIntoView({ block: "nearest" });
    node.querySelector("input, button").focus({ preventScroll: true });
  }

  _close(back = false) {
    const { open } = this;
    this.open = null;
    document.getElementById("row-form")?.remove();
    if (!back || !open) return;
    const { opener, form } = open;
    (opener?.isConnected ? opener : document.getElementById(`add-${form}`))?.focus();
  }

  // What a new row begins with.
  _fresh(form) {
    const proposed = PROPOSED[form];
    const table = tableOf(form);
    const rows = this.tables[table] ?? [];
    const key = FIELDS[form][0][0];
    const used = new Set(rows.map((row) => row[key]));
    let number = 1;
    while (used.has(`${proposed} ${number}`)) number++;
    const fresh = proposed ? { [key]: `${proposed} ${number}` } : {};
    if (form === "tasks") fresh.days = "1";
    if (form === "things") fresh.holds = "1";
    if (form === "absences") Object.assign(fresh, { from: this._start(), to: this._start() });
    if (form === "wishes") fresh.latest = this._start();
    if (form === "setups") fresh.days = "1";
    if (form === "plan") fresh.start = shifted("", 0, new Date().toISOString().slice(0, 10));
    return fresh;
  }

  _start() {
    return this.tables.plan?.[0]?.start ?? "";
  }

  async _submit() {
    const { form, table, place, row } = this.open;
    const texts = Object.fromEntries(
      Object.entries(row).map(([key, text]) => [key, text.trim()]).filter(([, text]) => text));
    if (form === "wishes" && !texts.wish) texts.wish = this._called(texts);
    if (await this.put(table, place, texts)) this._close(true);
  }

  // What a wish is called that has no name, and no other has.
  _called(row) {
    const parts = [row.task ?? "all", row.earliest && `from ${dated(row.earliest)}`,
      row.latest && `by ${dated(row.latest)}`, row.cost && `for ${row.cost}`];
    const name = parts.filter((it) => it).join(" ");
    const used = new Set((this.tables.wishes ?? []).map((each) => each.wish));
    return used.has(name) ? `${name} too` : name;
  }

  _field(key, label, sort) {
    const { row } = this.open;
    const id = `field-${key}`;
    const set = (text) => { row[key] = text; };
    const shown = this[`_${sort}`](id, row[key] ?? "", set, key);
    const says = shown.input ? made("label", { for: id }, label) : made("span", { id }, label);
    return made("div", { class: "field", role: shown.input ? "none" : "group",
      ...(shown.input ? {} : { "aria-labelledby": id }) }, says, shown.node);
  }

  _text(id, value, set) {
    const input = made("input", { id, autocomplete: "off" });
    input.value = value;
    input.addEventListener("input", () => set(input.value));
    return { input, node: input };
  }

  _name(id, value, set) {
    const shown = this._text(id, value, set);
    shown.input.addEventListener("focus", () => shown.input.select());
    return shown;
  }

  // A number or a day, with a button for one less and one for one more.
  _stepped(id, input, step) {
    const less = made("button", { type: "button", class: "step", id: `${id}-less`,
      "aria-label": "One less" }, "\u2212");
    const more = made("button", { type: "button", class: "step", id: `${id}-more`,
      "aria-label": "One more" }, "+");
    less.addEventListener("click", () => step(-1));
    more.addEventListener("click", () => step(1));
    return { input, node: made("span", { class: "stepped" }, less, input, more) };
  }

  _number(id, value, set, key) {
    const { input } = this._text(id, value, set);
    input.inputMode = "numeric";
    return this._stepped(id, input, (by) => {
      const now = Number.parseInt(input.value, 10);
      const next = Number.isNaN(now) ? Math.max(LEAST[key], 1) : now + by;
      input.value = String(Math.max(LEAST[key], next));
      set(input.value);
    });
  }

  _date(id, value, set, key) {
    const { input } = this._text(id, value, set);
    const start = this._start();
    if (!start && key !== "start") {
      return this._number(id, value, set, "left");
    }
    if (!value || /^\d{4}-\d\d-\d\d$/.test(value)) input.type = "date";
    input.value = value;
    const shown = this._stepped(id, input, (by) => {
      input.value = shifted(input.value, by, start || new Date().toISOString().slice(0, 10));
      set(input.value);
    });
    const none = made("button", { type: "button", class: "step", id: `${id}-none`,
      "aria-label": "No day" }, "\u00d7");
    none.addEventListener("click", () => {
      input.value = "";
      set("");
    });
    shown.node.append(none);
    return shown;
  }

  // Buttons for names, of which several are pressed, or one; with what stands before their ids, and
  // what is told where there is none.
  _chips(names, isOn, press, { prefix = "chip", none = "none yet" } = {}) {
    const chips = made("span", { class: "chips" });
    const shown = () => {
      chips.replaceChildren(...names.map((name) => {
        const chip = made("button", { type: "button", class: "chip", id: `${prefix} ${name}`,
          "aria-pressed": String(isOn(name)) }, named(name));
        chip.dataset.name = name;
        chip.addEventListener("click", () => {
          press(name);
          shown();
          [...chips.children].find((each) => each.dataset.name === name)?.focus();
        });
        return chip;
      }));
    };
    shown();
    if (!names.length) chips.append(made("span", { class: "hint" }, none));
    return { node: chips };
  }

  _several(names, value, set, between = ", ") {
    let picked = namesIn(value);
    return this._chips(names, (name) => picked.includes(name), (name) => {
      picked = picked.includes(name) ? picked.filter((it) => it !== name) : [...picked, name];
      set(picked.join(between));
    });
  }

  _single(names, value, set, told) {
    let picked = value;
    const press = (name) => {
      picked = picked === name ? "" : name;
      set(picked);
    };
    return this._chips(names, (name) => picked === name, press, told);
  }

  _people(isThing = false) {
    const rows = (this.tables.people ?? []).filter((row) => Boolean(row.holds) === isThing);
    return rows.map((row) => row.person).filter((name) => name);
  }

  _taskNames() {
    return [...new Set((this.tables.tasks ?? []).map((row) => row.task))].filter((name) => name);
  }

  _who(id, value, set) {
    const people = this._people();
    // (what says more than names stays a text)
    const isPlain = namesIn(value).every((name) => people.includes(name));
    if (!isPlain) return this._text(id, value, set);
    let isAny = /\bor\b/.test(value);
    let picked = namesIn(value);
    const put = () => set(picked.join(isAny ? " or " : ", "));
    const chips = this._chips(people, (name) => picked.includes(name), (name) => {
      picked = picked.includes(name) ? picked.filter((it) => it !== name) : [...picked, name];
      put();
    });
    const ways = [["all of them", false], ["any one of them", true]].map(([text, any]) => {
      const own = `who-${any ? "any" : "all"}`;
      const box = made("input", { type: "radio", name: "who-way", id: own });
      box.checked = isAny === any;
      box.addEventListener("change", () => {
        isAny = any;
        put();
      });
      return made("span", { class: "way" }, box, made("label", { for: box.id }, text));
    });
    return { node: made("span", {}, chips.node, made("span", { class: "ways" }, ...ways)) };
  }

  _tasks(id, value, set) {
    const own = this.open.row.task;
    const names = this._taskNames().filter((name) => name !== own);
    const isPlain = namesIn(value).every((name) => names.includes(name));
    return isPlain ? this._several(names, value, set) : this._text(id, value, set);
  }

  _uses(id, value, set) {
    const names = this._people(true);
    const isPlain = namesIn(value).every((name) => names.includes(name));
    return isPlain ? this._several(names, value, set) : this._text(id, value, set);
  }

  _task(id, value, set) {
    return this._single(this._taskNames(), value, set);
  }

  // The kinds of tasks there are.
  _kindNames() {
    return [...new Set((this.tables.tasks ?? []).map((row) => row.kind))].filter((kind) => kind);
  }

  _kinds(id, value, set, key) {
    const none = "none yet: the form of a task has its kind, under More";
    return this._single(this._kindNames(), value, set, { prefix: key, none });
  }

  // A kind that there is, a new one that is proposed, or another name.
  _kind(id, value, set) {
    const names = this._kindNames();
    let number = 1;
    while (names.includes(`kind ${number}`)) number++;
    const shown = this._text(id, value, set);
    const chips = this._single([...names, `kind ${number}`], value, (text) => {
      shown.input.value = text;
      set(text);
    });
    return { input: shown.input, node: made("span", {}, shown.node, chips.node) };
  }

  // Somebody, or what there is one of.
  _one(id, value, set) {
    const things = (this.tables.people ?? []).filter((row) => row.holds === "1");
    return this._single([...this._people(), ...things.map((row) => row.person)], value, set);
  }

  _person(id, value, set) {
    return this._single([...this._people(), ...this._people(true)], value, set);
  }

  _weekdays(id, value, set) {
    const isPlain = namesIn(value.replaceAll(" ", ",")).every((day) => DAYS.includes(day));
    if (!isPlain) return this._text(id, value, set);
    return this._several(DAYS, value.replaceAll(" ", ","), set, " ");
  }

  _off(id, value, set) {
    return this._weekdays(id, value, set);
  }

  _yes(id, value, set) {
    return this._single(["yes", "no"], value || "yes", (text) => set(text === "no" ? "no" : ""));
  }
}

// What a form says went wrong, above it.
export function tellWrong(text) {
  const form = document.getElementById("row-form");
  if (!form) return;
  form.querySelector(".wrong")?.remove();
  if (text) form.prepend(made("p", { class: "wrong", role: "alert" }, printable(text)));
}

// The plan on the page: its chart, why it ends no sooner, what stands in its way, and the forms
// that change it. All that is told of it is the server's answer.

import { Forms, tellWrong } from "./forms.js";
import { Gantt, colourOf } from "./gantt.js";
import { joined, made, named, tell } from "./texts.js";
import { traded } from "./trade.js";

const at = (id) => document.getElementById(id);
// A plan is looked for so many seconds at first, then more and more, up to so many at a time.
const FIRST = 2;
const MORE = 3;
const MOST = 27;
// How soon, in milliseconds, it is shown that a search goes on.
const SOON = 250;
// So many ways out are shown at once.
const FEW = 4;
// On a screen that is no wider all stands one below the other.
const NARROW = 900;

export class PlanView {
  // `page` has what the page does: ask (which may be told to stay quiet), take, say, look, save.
  constructor(page) {
    this.page = page;
    this.plan = null;
    this.last = null;
    this.found = null;
    this.planned = 0;
    this.runs = 0;
    this.gantt = new Gantt(at("chart"), (task) => this._pick(task));
    this.forms = new Forms(at("plan-forms"), {
      put: (table, place, row) => this._change({ what: "put", table, place, row }),
      drop: (table, place) => this._change({ what: "drop", table, place }),
    });
    const press = (id, act) => at(id).addEventListener("click", act);
    press("tab-plan", () => this.turn(true));
    press("tab-network", () => this.turn(false));
    press("undo", () => this._change({ what: "undo" }));
    press("redo", () => this._change({ what: "redo" }));
    press("save-plan", () => page.save({}));
    press("why", () => this._why());
    press("agree", () => this._change({ what: "agree", agreed: true }));
    press("trade-cost", () => this._trade("cost"));
    press("trade-wishes", () => this._trade("wishes"));
    at("tabs").addEventListener("keydown", (event) => {
      if (event.key !== "ArrowLeft" && event.key !== "ArrowRight") return;
      this.turn(event.key === "ArrowLeft");
      at(event.key === "ArrowLeft" ? "tab-plan" : "tab-network").focus();
    });
    at("suppose-form").addEventListener("submit", (event) => {
      event.preventDefault();
      this._suppose();
    });
    document.addEventListener("keydown", (event) => {
      const isUndo = (event.ctrlKey || event.metaKey) && event.key === "z";
      if (!this.plan || !isUndo || event.target.closest("input, select, textarea")) return;
      event.preventDefault();
      this._change({ what: event.shiftKey ? "redo" : "undo" });
    });
  }

  // Shows what is known of the plan, and looks for its best one where it has changed.
  show(state) {
    this.plan = state.plan ?? null;
    at("tabs").hidden = at("plan-bar").hidden = !this.plan;
    if (!this.plan) return;
    if (!this.planned) {
      document.body.classList.add("plan");
      document.querySelector("header").append(at("save-place"));
      this.turn(true);
    }
    const { plan } = this;
    at("plan-forms").hidden = !plan.editable;
    at("plan-view").classList.toggle("fixed", !plan.editable);
    at("save-plan").hidden = state.file === null;
    for (const [id, name, says] of [["undo", "Undo", plan.undo], ["redo", "Redo", plan.redo]]) {
      at(id).disabled = !says;
      at(id).title = says ? `${name}: ${says}` : `There is nothing to ${id}`;
    }
    if (plan.editable) this.forms.show(plan.tables);
    if (this.planned !== state.version) {
      this.planned = state.version;
      this._find();
    }
  }

  // Turns to the plan, or to the network.
  turn(isPlan) {
    at("plan-view").hidden = !isPlan;
    at("network-view").hidden = isPlan;
    at("tab-plan").setAttribute("aria-selected", String(isPlan));
    at("tab-network").setAttribute("aria-selected", String(!isPlan));
    at("tab-plan").tabIndex = isPlan ? 0 : -1;
    at("tab-network").tabIndex = isPlan ? -1 : 0;
    (isPlan ? at("plan-switches") : at("network-view")).prepend(at("switches"));
    if (!isPlan) this.page.look();
  }

  // --- changes ---

  // Has the server change something; whether it did.
  async _change(asked) {
    if (this.runs) await this.page.stop();
    tellWrong("");
    const said = [];
    const told = await this.page.ask(asked, (text) => said.push(text));
    if (!told) {
      tellWrong(said.join(" "));
      if (!document.getElementById("row-form")) this.page.say(said.join(" "), true);
      return false;
    }
    this.page.take(told);
    return true;
  }

  // Asks what may take long, which a change of the plan ends.
  async _long(body, wrong) {
    this.runs++;
    try {
      const told = await this.page.ask(body, wrong);
      return told?.stopped ? undefined : told;
    } finally {
      this.runs--;
    }
  }

  // --- the best plan ---

  async _find() {
    const version = this.planned;
    const slow = setTimeout(() => at("plan-middle").classList.add("looking"), SOON);
    try {
      let seconds = FIRST;
      while (this.planned === version) {
        const told = await this._long({ what: "plan", seconds }, () => {});
        if (!told || this.planned !== version) return;
        this._tell(told);
        if (told.empty || told.none || told.found?.proved) return;
        seconds = Math.min(MOST, seconds * MORE);
      }
    } finally {
      clearTimeout(slow);
      if (this.planned === version) at("plan-middle").classList.remove("looking");
    }
  }

  _tell(told) {
    this.found = told.found ?? null;
    if (this.found) this.last = this.found;
    at("hinders").hidden = !told.none;
    at("plan-more").hidden = !this.found;
    at("trade").hidden = Boolean(told.empty);
    at("trade-told").replaceChildren();
    at("plan-middle").classList.toggle("none", Boolean(told.none));
    at("why-says").replaceChildren();
    at("supposed").textContent = "";
    if (told.empty) {
      this.last = null;
      this._head("There is no task yet", "Add people, and then tasks: what is planned shows here.");
    } else if (!this.found) {
      const old = this.last ? " Below is the plan before." : "";
      this._head(told.says, told.none ? old : "It goes on looking.");
    } else {
      const moved = this.found.moved ? ` Since what was agreed: ${this.found.moved}.` : "";
      this._head(this.found.headline, `${this.found.says} ${this.found.gap}${moved}`);
    }
    this.gantt.show(this.last, !this.found);
    this._legend();
    this._chain();
    if (!told.none) at("hinders-says").replaceChildren();
    if (told.none) {
      this._hinders();
      // (on a phone the form stands far below)
      if (window.innerWidth <= NARROW) at("plan-head").scrollIntoView();
    }
  }

  _head(head, says) {
    tell(at("plan-head"), head);
    tell(at("plan-says"), says);
    this.page.say("");
  }

  _legend() {
    const { last } = this;
    const people = last ? last.people : [];
    const parts = people.map((name) => made("span", { class: "key" },
      made("span", { class: `swatch ${colourOf(people, name)}` }), named(name)));
    const also = [["chain", "makes the end", last?.rows.some((row) => row.chain)],
      ["away", "away", last?.rows.some((row) => row.aways.length)],
      ["before", "as was agreed", last?.rows.some((row) => row.before)]];
    for (const [sort, text, is] of also) {
      const swatch = made("span", { class: `swatch ${sort}` });
      if (is) parts.push(made("span", { class: "key" }, swatch, text));
    }
    at("legend").replaceChildren(...parts);
  }

  _chain() {
    const chain = this.found?.chain ?? [];
    at("chain").replaceChildren(...chain.map((each) => this._link(each)));
    at("does-what").replaceChildren(...(this.found?.does ?? []).flatMap(
      (each) => [made("dt", {}, named(each.who)), made("dd", {}, each.does || "nothing")]));
    at("chain-head").hidden = at("why").hidden = !chain.length;
    const left = this.found?.left ?? { says: "", kinds: [] };
    at("chain-left").hidden = !left.says;
    at("chain-left").open = false;
    tell(at("chain-left").querySelector("summary"), left.says);
    at("chain-left").querySelector("dl").replaceChildren(...left.kinds.flatMap(
      ([kind, premises]) => [made("dt", {}, kind), made("dd", {}, ...joined(premises, ", "))]));
    at("agree").hidden = !this.plan.editable;
  }

  // A row of the chain: a task, or several that show on a click.
  _link(each) {
    const buttons = each.tasks.map((task) => {
      const button = made("button", { type: "button", class: "planned" }, named(task));
      button.addEventListener("click", () => this._pick(task));
      return button;
    });
    const who = each.who ? ` (${each.who})` : "";
    const waits = each.waits ? `, which waits for ${each.waits}` : "";
    const says = `${each.when}${who}${waits}`;
    if (buttons.length === 1) return made("li", {}, ...buttons, ` ${says}`);
    const head = made("summary", {}, named(each.told), ` ${says}`);
    return made("li", {}, made("details", {}, head, ...buttons));
  }

  async _why() {
    const version = this.planned;
    const told = await this._long({ what: "why" });
    if (!told || this.planned !== version) return;
    const rooms = told.rooms.map(({ task, days }) => made("li", {}, named(task),
      days ? ` can move by ${days} day${days === 1 ? "" : "s"}` : " can't move"));
    const others = told.others.length ? [made("p", {}, "It is also because of ",
      ...joined(told.others, ", "), ".")] : [];
    const none = rooms.length ? [] : [made("p", {}, "All tasks make the end.")];
    at("why-says").replaceChildren(...others, made("ul", {}, ...rooms), ...none);
  }

  async _suppose() {
    const text = at("suppose").value.trim();
    if (!text) return;
    const said = [];
    const told = await this._long({ what: "suppose", text }, (wrong) => said.push(wrong));
    tell(at("supposed"), told ? told.says : said.join(" "));
    at("supposed").classList.toggle("wrong", !told);
  }

  // What an earlier end costs, in money or in wishes.
  async _trade(goal) {
    const version = this.planned;
    const said = [];
    at("trade-told").replaceChildren(made("p", {}, "Looking for all of them."));
    const told = await this._long({ what: "trade", goal }, (wrong) => said.push(wrong));
    if (this.planned !== version) return;
    // A plan is taken by what else would be wished for, or by what is given up.
    const take = goal === "wishes"
      ? ({ lost }) => this._change({ what: "give up", premises: lost })
      : ({ value }) => this._change({ what: "put", table: "wishes", place: null,
        row: { wish: `cost at most ${value}` } });
    const canTake = goal === "wishes" || this.plan.editable;
    const wrong = said.map((text) => made("p", { class: "wrong" }, text));
    const parts = told ? traded(told, { goal, take: canTake ? take : null }) : wrong;
    at("trade-told").replaceChildren(...parts);
    at("trade-told").scrollIntoView({ block: "nearest" });
  }

  // --- what stands in its way ---

  async _hinders() {
    const version = this.planned;
    at("hinders-says").replaceChildren(made("p", {}, "Looking for what could be given up."));
    const told = await this._long({ what: "hinders" }, () => {});
    if (!told || this.planned !== version) return;
    const conflicts = told.conflicts.map((each) => this._conflict(each));
    const repairs = told.repairs.map((each, place) => this._repair(each, place + 1));
    const none = made("p", {}, "Nothing that may be given up would help: change a task.");
    at("hinders-says").replaceChildren(...conflicts,
      made("h3", {}, repairs.length ? "It fits if you" : "What to do"), ...repairs.slice(0, FEW),
      ...(repairs.length > FEW ? [made("details", {},
        made("summary", {}, `Show ${repairs.length - FEW} more`), ...repairs.slice(FEW))] : []),
      ...(repairs.length ? [] : [none]),
      ...(told.complete ? [] : [made("p", {}, "There may be other ways.")]));
  }

  _conflict({ wishes, facts }) {
    const items = wishes.map(([premise, says]) => made("li", {}, named(premise),
      ...(says && says !== premise ? [": ", named(says)] : [])));
    const since = made("p", {}, wishes.length ? "since " : "", ...joined(facts, ", "));
    return made("div", { class: "conflict" }, made("ul", {}, ...items),
      ...(facts.length ? [since] : []));
  }

  _repair({ premises, says, cost }, number) {
    const tried = made("p", { class: "tried", role: "status" });
    const attempt = made("button", { type: "button", id: `try ${number}` }, "Try");
    attempt.addEventListener("click", async () => {
      const told = await this._long({ what: "without", premises });
      if (told) tell(tried, told.says);
    });
    const apply = made("button", { type: "button", class: "take", id: `take ${number}` },
      "Take this");
    apply.addEventListener("click", () => this._change({ what: "give up", premises }));
    const name = made("span", {}, ...joined(says, " and "),
      ...(cost === premises.length ? [] : [made("small", {}, `It counts ${cost}.`)]));
    return made("div", {}, made("div", { class: "repair" }, name, attempt, apply), tried);
  }

  _pick(task) {
    this.gantt.mark(task);
    if (this.plan.editable) this.forms.openTask(task);
    const row = this.last?.rows.find((each) => each.task === task);
    if (row) {
      const waits = row.waits ? `, behind ${row.waits}` : "";
      this.page.say([named(task), `: ${row.when}${waits}`]);
    }
    this.page.pickTask(task);
  }
}

// The chart of a plan: a row for each task, a column for each day of work. What a plan says is set
// as text, never as markup.

import { drawn, printable } from "./texts.js";

// Sizes in pixels: of the names in front, of a row, of a bar in it, and of the dates above; where
// there is little room names stand above the bars.
const WIDE = { names: 150, row: 28, bar: 17, top: 5, head: 22 };
const NARROW = { names: 0, row: 40, bar: 17, top: 19, head: 20 };
const FEW = 620;
const DAY = { least: 9, most: 38 };
// So wide a letter is about, in a bar and in a name.
const LETTER = 6.6;
const BOLD = 1.12;
// People have so many colours.
const COLOURS = 8;

const cut = (text, room) => {
  const most = Math.max(1, Math.floor(room / LETTER));
  return text.length <= most ? text : `${text.slice(0, most - 1)}\u2026`;
};

// The class of what somebody does, or of what nobody is named for.
export function colourOf(people, name) {
  const place = people.indexOf(name);
  return place < 0 ? "nobody" : `person-${place % COLOURS}`;
}

export class Gantt {
  constructor(svg, pick) {
    this.svg = svg;
    this.pick = pick;
    this.plan = null;
    this.picked = "";
    this.old = false;
    svg.addEventListener("keydown", (event) => this._key(event));
    new ResizeObserver(() => this._sized()).observe(svg.parentElement);
  }

  // Shows a plan; `old` where it isn't the one that holds now.
  show(plan, old) {
    this.plan = plan;
    this.old = old;
    this._draw();
  }

  mark(task) {
    this.picked = task;
    for (const row of this.svg.querySelectorAll(".row")) {
      row.classList.toggle("picked", row.dataset.task === task);
    }
  }

  _sized() {
    const width = this.svg.parentElement.clientWidth;
    if (width && width !== this.width) this._draw();
  }

  _draw() {
    this.width = this.svg.parentElement.clientWidth || 600;
    const { plan } = this;
    this.svg.replaceChildren();
    this.svg.classList.toggle("old", this.old);
    if (!plan) return this.svg.setAttribute("height", 0);
    this.sizes = this.width < FEW ? NARROW : WIDE;
    const { names, row, head } = this.sizes;
    const fits = (this.width - names - 12) / plan.days.length;
    this.day = Math.min(DAY.most, Math.max(DAY.least, fits));
    this.height = head + plan.rows.length * row + 6;
    const width = Math.ceil(names + plan.days.length * this.day + 10);
    this.svg.setAttribute("width", width);
    this.svg.setAttribute("height", this.height);
    this.svg.append(this._hatch(), ...this._days());
    plan.rows.forEach((each, at) => this.svg.append(this._row(each, head + at * row)));
    if (plan.today !== null) this.svg.append(this._line(plan.today, "today"));
    this.mark(this.picked);
  }

  _hatch() {
    const hatch = drawn("pattern", {
      id: "hatch", width: 6, height: 6, patternUnits: "userSpaceOnUse",
      patternTransform: "rotate(45)",
    });
    hatch.append(drawn("rect", { width: 3, height: 6, class: "hatch" }));
    return hatch;
  }

  _x(day) {
    return this.sizes.names + day * this.day;
  }

  _line(day, sort) {
    const x = this._x(day).toFixed(1);
    return drawn("line", { x1: x, x2: x, y1: this.sizes.head - 4, y2: this.height, class: sort });
  }

  // Lines between days, those behind days off stronger, and the dates above.
  _days() {
    const parts = [];
    let free = -1e9;
    this.plan.days.forEach((each, day) => {
      if (each.gap || this.day >= 14) {
        parts.push(this._line(day, each.gap ? "week" : "between"));
      }
      const x = this._x(day);
      if (each.label && x >= free) {
        parts.push(drawn("text", { x: x + 2, y: 14, class: "date" }, each.label));
        free = x + (each.label.length + 1) * LETTER;
      }
    });
    return parts;
  }

  _row(each, top) {
    const { names, row, bar, top: under } = this.sizes;
    const who = [...each.who, ...each.uses].join(", ");
    const parts = [each.task, each.when, who, each.way].filter((text) => text);
    if (each.chain) parts.push("makes the end");
    if (each.waits) parts.push(`behind ${each.waits}`);
    const node = drawn("g", {
      class: `row${each.chain ? " chain" : ""}`, tabindex: 0, role: "button",
      "aria-label": printable(parts.join(", ")),
    });
    node.dataset.task = each.task;
    node.append(drawn("title", {}, parts.join("\n")));
    const width = this._x(this.plan.days.length);
    node.append(drawn("rect", { x: 0, y: top, width, height: row, class: "ground" }));
    if (names) {
      const name = cut(each.task, names - 12);
      node.append(drawn("text", { x: 4, y: top + 18, class: "name" }, name));
    } else {
      const told = `${each.task} \u00b7 ${each.when}${who ? ` \u00b7 ${who}` : ""}`;
      const room = told.length * LETTER * (each.chain ? BOLD : 1);
      const left = Math.max(0, Math.min(this._x(each.parts[0][0]), width - room));
      const shown = cut(told, width - left);
      node.append(drawn("text", { x: left, y: top + 14, class: "name" }, shown));
    }
    const last = this.plan.days.length;
    for (const away of each.aways) {
      const to = Math.min(last, away.to);
      if (away.from >= to) continue;
      const free = this._bar(away.from, to, top + under - 2, bar + 4, "away");
      free.setAttribute("fill", "url(#hatch)");
      node.append(free);
    }
    if (each.before) {
      node.append(this._bar(each.before[0], each.before[1], top + under + bar + 1, 3, "before"));
    }
    const colour = colourOf(this.plan.people, each.who[0] ?? each.needs[0]);
    const from = each.parts[0][0];
    const to = each.parts[each.parts.length - 1][1];
    if (each.parts.length > 1) {
      node.append(this._bar(from, to, top + under + bar / 2 - 1, 2, `part ${colour}`));
    }
    for (const [start, end] of each.parts) {
      node.append(this._bar(start, end, top + under, bar, `part ${colour}`));
    }
    const room = (each.parts[0][1] - from) * this.day - 6;
    if (names && who && room > 3 * LETTER) {
      const y = top + under + bar - 4;
      node.append(drawn("text", { x: this._x(from) + 4, y, class: "who" }, cut(who, room)));
    }
    node.addEventListener("click", () => this.pick(each.task));
    return node;
  }

  _bar(from, to, y, height, sort) {
    const width = Math.max(3, (to - from) * this.day - 1);
    return drawn("rect", {
      x: this._x(from).toFixed(1), y, width: width.toFixed(1), height, rx: 2, class: sort,
    });
  }

  _key(event) {
    const rows = [...this.svg.querySelectorAll(".row")];
    const at = rows.indexOf(event.target.closest(".row"));
    const way = { ArrowDown: 1, ArrowUp: -1 }[event.key];
    if (at < 0) return;
    if (way) rows[at + way]?.focus();
    else if (event.key === "Enter" || event.key === " ") this.pick(rows[at].dataset.task);
    else return;
    event.preventDefault();
  }
}

// The drawing: cells and uses, which can be moved, zoomed, lit and walked through by keys.
//
// All boxes of a sort are one path of the SVG, and texts are made for those in sight alone, so that
// a thousand cells stay fluent. All that a session says is set as text, never as markup.

import { CELL, USE, layout } from "./layout.js";
import { drawn, printable } from "./texts.js";

// So many letters a box has room for; of a value some more, in small ones.
const LETTERS = { cell: 17, value: 15, small: 20, use: 14 };
// Nearer than this texts are shown.
const READABLE = 0.42;
// What is around a cell is drawn at least so near.
const NEAR = 0.8;
// More nodes than this are drawn in the quickest way: with straight wires.
const MANY = 600;
// The paths, from the lowest to the highest, and those of what is marked.
const PATHS = ["wires", "wires lit", "uses", "out", "cells", "changed", "bears", "picked", "here"];
const MARKS = PATHS.filter((name) => name !== "wires" && name !== "cells");

const short = (text, most) => (text.length <= most ? text : `${text.slice(0, most - 1)}\u2026`);

export class Drawing {
  constructor(svg, sheet, under, pick) {
    this.svg = svg;
    this.sheet = sheet;
    this.under = under;
    this.pick = pick;
    this.paths = new Map(PATHS.map((name) => [name, drawn("path", { class: name })]));
    this.said = new Map();
    this.texts = drawn("g", {});
    this.sheet.append(...this.paths.values(), this.texts);
    this.network = { cells: [], uses: [] };
    this.places = { x: [], y: [], width: 1, height: 1 };
    this.values = new Map();
    this.shown = new Map();
    this.marks = { changed: new Set(), cells: new Set(), uses: new Set(), believed: new Set() };
    this.here = this.last = null;
    this.view = { x: 0, y: 0, scale: 1 };
    this._listen();
    new ResizeObserver(() => this._sized()).observe(svg);
  }

  // Draws a network anew, whole; or what is around a cell, as near as its texts can be read.
  draw(network, middle = "") {
    this.network = network;
    this.middle = middle;
    this.places = layout(network);
    this.shown.clear();
    this.texts.replaceChildren();
    this.at = new Map(network.cells.map((cell, at) => [cell.name, at]));
    this.wires = network.uses.map((use, at) => {
      const cells = [...new Set(use.cells)].filter((cell) => this.at.has(cell));
      return cells.map((cell) => [cell, this._wire(network.cells.length + at, this.at.get(cell))]);
    });
    this.svg.classList.toggle("many", this.places.x.length > MANY);
    this.boxes = network.cells.map((_, at) => this._box(at, CELL));
    this.boxes.push(...network.uses.map((_, at) => this._box(network.cells.length + at, USE)));
    this._set("wires", this.wires.flatMap((wires) => wires.map(([, path]) => path)));
    this._set("cells", this.boxes.slice(0, network.cells.length));
    this.here = null;
    this.fit();
    this._paint();
  }

  // Shows what is known of each cell, marks those that changed, what doesn't count, and the use that
  // was called, if any.
  show(values, changed, believed, called) {
    this.values = values;
    Object.assign(this.marks, { changed, believed, called });
    this._paint();
    this._write();
  }

  // Lights what bears on a cell; nothing where that is null.
  light(bears) {
    Object.assign(this.marks, { cells: new Set(bears?.cells), uses: new Set(bears?.uses) });
    this._paint();
  }

  picked(name) {
    this.last = name;
    this._paint();
  }

  // Where a cell is in the window, as x and y.
  where(name) {
    const box = this.svg.getBoundingClientRect();
    const at = this.at.get(name);
    const { x, y, scale } = this.view;
    return [box.left + this.places.x[at] * scale + x, box.top + this.places.y[at] * scale + y];
  }

  // The whole drawing, or as near as it is still a drawing; of what is around a cell so near that it
  // can be read, unless all of it is wanted.
  fit(isAll = false) {
    const { width, height } = this._size();
    const fits = [width / (this.places.width + 30), height / (this.places.height + 30)];
    const whole = Math.min(1.3, ...fits);
    const at = isAll ? undefined : this.at?.get(this.middle);
    const scale = at === undefined ? whole : Math.max(NEAR, whole);
    const { places } = this;
    const isNear = scale > whole;
    const x = isNear ? places.x[at] : places.width / 2;
    const y = isNear ? places.y[at] : places.height / 2;
    this.view = { scale, x: width / 2 - x * scale, y: height / 2 - y * scale };
    this.fitted = true;
    this._look();
  }

  zoom(factor, x, y) {
    const size = this._size();
    const [atX, atY] = [x ?? size.width / 2, y ?? size.height / 2];
    const scale = Math.min(4, Math.max(0.02, this.view.scale * factor));
    const real = scale / this.view.scale;
    this.view = { scale, x: atX - (atX - this.view.x) * real, y: atY - (atY - this.view.y) * real };
    this.fitted = false;
    this._look();
  }

  // --- painting ---

  // Gives a path its parts, where these are others than before.
  _set(name, parts) {
    const text = parts.join("");
    if (this.said.get(name) === text) return;
    this.said.set(name, text);
    this.paths.get(name).setAttribute("d", text);
  }

  _wire(use, cell) {
    const { x, y } = this.places;
    const side = x[cell] < x[use] ? 1 : -1;
    const from = x[cell] + (side * CELL.width) / 2;
    const dx = (x[use] - (side * USE.width) / 2 - from).toFixed(1);
    const dy = (y[use] - y[cell]).toFixed(1);
    if (x.length > MANY) return `M${from.toFixed(0)} ${y[cell].toFixed(0)}l${dx} ${dy}`;
    return `M${from.toFixed(1)} ${y[cell].toFixed(1)}c${dx / 2} 0 ${dx / 2} ${dy} ${dx} ${dy}`;
  }

  _box(at, size) {
    const { width, height } = size;
    const [x, y] = [this.places.x[at] - width / 2, this.places.y[at] - height / 2];
    return `M${x.toFixed(1)} ${y.toFixed(1)}h${width}v${height}h${-width}z`;
  }

  // Has each box in the path of what it is. What is marked of the cells lies over all of them, whose
  // path stays: to measure so long a path anew takes as long as all else.
  _paint() {
    const { changed, cells, uses, believed, called } = this.marks;
    const parts = Object.fromEntries(PATHS.map((name) => [name, []]));
    this.network.cells.forEach((cell, at) => {
      const sort = cells.has(cell.name) ? "bears" : changed.has(cell.name) ? "changed" : "";
      const box = this.boxes[at];
      if (sort) parts[sort].push(box);
      if (cell.name === this.last) parts.picked.push(box);
      if (cell.name === this.here) parts.here.push(box);
    });
    this.network.uses.forEach((use, at) => {
      const isOut = use.premise && !believed.has(use.premise);
      const isLit = uses.has(use.name) || use.name === called;
      const sort = isOut ? "out" : isLit ? "bears" : "uses";
      parts[sort].push(this.boxes[this.network.cells.length + at]);
      if (uses.has(use.name)) {
        const lit = this.wires[at].filter(([cell]) => cells.has(cell));
        parts["wires lit"].push(...lit.map(([, path]) => path));
      }
    });
    for (const name of MARKS) this._set(name, parts[name]);
  }

  _look() {
    const { x, y, scale } = this.view;
    this.sheet.setAttribute("transform", `translate(${x} ${y}) scale(${scale})`);
    this._write();
  }

  // The nodes that are in sight.
  *_inSight() {
    const { x, y, scale } = this.view;
    const size = this._size();
    const [midX, midY] = [(size.width / 2 - x) / scale, (size.height / 2 - y) / scale];
    const wide = size.width / scale / 2 + CELL.width / 2;
    const high = size.height / scale / 2 + CELL.height / 2;
    const { places } = this;
    for (let at = 0; at < places.x.length; at++) {
      const isNear = Math.abs(places.x[at] - midX) <= wide;
      if (isNear && Math.abs(places.y[at] - midY) <= high) yield at;
    }
  }

  // Has the texts of what is in sight, where they can be read.
  _write() {
    const seen = new Set(this.view.scale < READABLE ? [] : this._inSight());
    for (const [at, texts] of this.shown) {
      if (!seen.has(at)) {
        texts.forEach((text) => text.remove());
        this.shown.delete(at);
      }
    }
    for (const at of seen) {
      if (!this.shown.has(at)) this.shown.set(at, this._texts(at));
      this._fill(at, this.shown.get(at));
    }
  }

  _texts(at) {
    const [x, y] = [this.places.x[at], this.places.y[at]];
    const cell = this.network.cells[at];
    const use = this.network.uses[at - this.network.cells.length];
    const texts = [];
    if (cell) {
      texts.push(drawn("text", { x, y: y - 4 }, short(cell.text, LETTERS.cell)));
      texts.push(drawn("text", { x, y: y + 12, class: "value" }));
    } else {
      texts.push(drawn("text", { x, y: y + 4, class: "used" }, short(use.text, LETTERS.use)));
    }
    this.texts.append(...texts);
    return texts;
  }

  _fill(at, texts) {
    const cell = this.network.cells[at];
    if (!cell) return;
    const said = this.values.get(cell.name) ?? "";
    const text = printable(short(said, LETTERS.small));
    if (texts[1].textContent === text) return;
    texts[1].textContent = text;
    texts[1].classList.toggle("small", said.length > LETTERS.value);
  }

  // --- moving ---

  _size() {
    const box = this.size ?? this.svg.getBoundingClientRect();
    return { width: box.width || 600, height: box.height || 400 };
  }

  _sized() {
    const { width, height } = this.svg.getBoundingClientRect();
    this.size = { width, height };
    if (this.fitted !== false) this.fit();
    else this._look();
  }

  // The node at a place of the window, as its number; -1 where none is.
  _under(event) {
    const box = this.svg.getBoundingClientRect();
    const { x, y, scale } = this.view;
    const atX = (event.clientX - box.left - x) / scale;
    const atY = (event.clientY - box.top - y) / scale;
    const { places } = this;
    for (let at = 0; at < places.x.length; at++) {
      const size = at < this.network.cells.length ? CELL : USE;
      const isNear = Math.abs(places.x[at] - atX) <= size.width / 2;
      if (isNear && Math.abs(places.y[at] - atY) <= size.height / 2) return at;
    }
    return -1;
  }

  _listen() {
    const { svg } = this;
    svg.addEventListener("wheel", (event) => {
      event.preventDefault();
      const box = svg.getBoundingClientRect();
      this.zoom(Math.exp(-event.deltaY / 400), event.clientX - box.left, event.clientY - box.top);
    }, { passive: false });
    let held = null;
    svg.addEventListener("pointerdown", (event) => {
      held = { x: event.clientX, y: event.clientY, moved: false };
    });
    svg.addEventListener("pointermove", (event) => {
      if (!held) return this._tell(this._under(event));
      const [dx, dy] = [event.clientX - held.x, event.clientY - held.y];
      if (!held.moved && Math.hypot(dx, dy) < 4) return;
      if (!held.moved) svg.setPointerCapture(event.pointerId);
      held = { x: event.clientX, y: event.clientY, moved: true };
      this.view = { ...this.view, x: this.view.x + dx, y: this.view.y + dy };
      this.fitted = false;
      this._look();
    });
    svg.addEventListener("pointerup", (event) => {
      const cell = held && !held.moved ? this.network.cells[this._under(event)] : undefined;
      held = null;
      if (cell) this.pick(cell.name);
    });
    svg.addEventListener("pointercancel", () => { held = null; });
    svg.addEventListener("keydown", (event) => this._key(event));
  }

  // Tells in full what is under the pointer.
  _tell(at) {
    const cell = this.network.cells[at];
    const use = this.network.uses[at - this.network.cells.length];
    const value = cell && this.values.get(cell.name);
    let text = "";
    if (cell) text = value ? `${cell.text} = ${value}` : cell.text;
    else if (use) text = [use.text, ...(use.parts.length ? [use.parts.join(", ")] : [])].join(": ");
    text = printable(text);
    if (this.under.textContent !== text) this.under.textContent = text;
    this.svg.classList.toggle("over", Boolean(cell));
  }

  _key(event) {
    const ways = { ArrowLeft: [-1, 0], ArrowRight: [1, 0], ArrowUp: [0, -1], ArrowDown: [0, 1] };
    if (ways[event.key]) this._walk(...ways[event.key]);
    else if (event.key === "+" || event.key === "=") this.zoom(1.25);
    else if (event.key === "-") this.zoom(0.8);
    else if (event.key === "0") this.fit();
    else if ((event.key === "Enter" || event.key === " ") && this.here) this.pick(this.here);
    else return;
    event.preventDefault();
  }

  // Goes to the nearest cell in a direction, and has it in sight.
  _walk(dx, dy) {
    const { cells } = this.network;
    const { x, y } = this.places;
    const from = this.at.get(this.here ?? this.last) ?? -1;
    let best = from < 0 && cells.length ? 0 : -1;
    let least = Infinity;
    if (from >= 0) {
      cells.forEach((_, at) => {
        const along = (x[at] - x[from]) * dx + (y[at] - y[from]) * dy;
        const across = Math.abs((x[at] - x[from]) * dy) + Math.abs((y[at] - y[from]) * dx);
        const far = along + 3 * across;
        if (at !== from && along > 1 && far < least) [least, best] = [far, at];
      });
    }
    if (best < 0) return;
    this.here = cells[best].name;
    this._paint();
    this._reveal(best);
    this.svg.dispatchEvent(new CustomEvent("here", { detail: this.here }));
  }

  _reveal(at) {
    const size = this._size();
    const { scale } = this.view;
    const x = this.places.x[at] * scale + this.view.x;
    const y = this.places.y[at] * scale + this.view.y;
    const inside = (value, most) => Math.min(most - 70, Math.max(70, value)) - value;
    const moved = { x: inside(x, size.width), y: inside(y, size.height) };
    this.view = { scale, x: this.view.x + moved.x, y: this.view.y + moved.y };
    this.fitted = false;
    this._look();
  }
}

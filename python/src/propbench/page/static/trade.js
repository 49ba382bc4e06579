// What an earlier end costs: a table of plans of which none is better in both, and a picture of it.
// All that is told is the server's answer.

import { drawn, joined, made, named, printable } from "./texts.js";

// Sizes in pixels: of the picture, and around what is drawn.
const SIZE = { wide: 420, high: 220, left: 58, right: 26, top: 26, below: 40 };
// So wide a letter is about; so many marks stand on an axis at the most.
const LETTER = 6.4;
const MARKS = 5;

// Where numbers stand between two places, with room around them.
function axis(numbers, begin, end) {
  const low = Math.min(...numbers);
  const high = Math.max(...numbers);
  const room = Math.max(1, Math.floor((high - low) / 8));
  const first = low > room ? low - room : 0;
  const place = (number) => begin + ((number - first) / (high + room - first)) * (end - begin);
  return { place, low: first, high: high + room };
}

// Round numbers on an axis, a few.
function marks({ low, high }) {
  const sizes = [...Array(15).keys()].flatMap((power) => [1, 2, 5].map((it) => it * 10 ** power));
  const size = sizes.find((each) => (high - low) / each <= MARKS);
  const first = Math.ceil(low / size) * size;
  return [...Array(Math.floor((high - first) / size) + 1).keys()].map((at) => first + at * size);
}

// The picture: a point for each plan, and the steps between them, below which nothing fits.
function picture(rows, { label, all }) {
  const { wide, high, left, right, top, below } = SIZE;
  const x = axis(rows.map((row) => row.end), left, wide - right);
  const y = axis(rows.map((row) => row.value), high - below, top);
  const svg = drawn("svg", { viewBox: `0 0 ${wide} ${high}`, role: "img", id: "trade-picture",
    "aria-label": `The end against ${label}: ${rows.length} plans` });
  const at = rows.map((row) => [x.place(row.end).toFixed(1), y.place(row.value).toFixed(1)]);
  const steps = [`M ${at[0][0]} ${top} V ${at[0][1]}`,
    ...at.slice(1).map(([across, up]) => `H ${across} V ${up}`), `H ${wide - right}`].join(" ");
  if (all) svg.append(drawn("path", { d: `${steps} V ${top} Z`, class: "fits" }));
  svg.append(drawn("path", { d: steps, class: "steps" }),
    drawn("path", { d: `M ${left} ${top} V ${high - below} H ${wide - right}`, class: "axes" }));
  for (const mark of marks(y)) {
    const place = y.place(mark).toFixed(1);
    svg.append(drawn("path", { d: `M ${left} ${place} h -4`, class: "axes" }), drawn("text",
      { x: left - 7, y: Number(place) + 4, "text-anchor": "end" }, String(mark)));
  }
  svg.append(drawn("text", { x: 2, y: 14, class: "what" }, label),
    drawn("text", { x: wide - 2, y: high - 4, "text-anchor": "end", class: "what" }, "done"));
  let free = 0;
  rows.forEach((row, number) => {
    const [across, up] = at[number];
    const half = (row.short.length * LETTER) / 2;
    svg.append(drawn("path", { d: `M ${across} ${high - below} v 4`, class: "axes" }));
    if (Number(across) - half >= free) {
      svg.append(drawn("text", { x: across, y: high - below + 17, "text-anchor": "middle" },
        row.short));
      free = Number(across) + half + LETTER;
    }
    const dot = drawn("circle", { cx: across, cy: up, r: 5, class: "plan-dot" });
    dot.append(drawn("title", {}, `${row.done}: ${row.value}`));
    svg.append(dot);
  });
  return svg;
}

// The table: a row for each plan, with a button that makes it the plan.
function table(rows, { label, differ, isWishes, take }) {
  const heads = ["done", label, ...differ, ...(take ? [""] : [])];
  const lines = rows.map((row, number) => {
    const lost = row.lost.length ? ["without ", ...joined(row.lost, ", ")] : ["with all wishes"];
    const value = made("td", { "data-head": label }, String(row.value),
      ...(isWishes ? [": ", ...lost] : []));
    // (what ends soonest is the plan already, and so is what keeps all wishes)
    const isPlan = isWishes ? !row.lost.length : !number;
    const button = made("button", { type: "button", id: `take plan ${number + 1}` }, "Take this");
    button.addEventListener("click", () => take(row));
    return made("tr", {}, made("th", { scope: "row" }, row.done), value,
      ...row.ways.map((way, at) => made("td", { "data-head": printable(differ[at]) }, named(way))),
      ...(take ? [made("td", {}, isPlan ? "the plan now" : button)] : []));
  });
  return made("table", { class: "traded" },
    made("thead", {}, made("tr", {}, ...heads.map((it) => made("th", { scope: "col" }, named(it))))),
    made("tbody", {}, ...lines));
}

// All that is shown of a trade-off: `take` makes one of the plans the plan, where it can.
export function traded(told, { goal, take }) {
  const isWishes = goal === "wishes";
  const label = isWishes ? "given up" : "cost";
  const says = made("p", { id: "trade-says" }, told.says);
  if (!told.rows.length) return [says];
  const { differ, rows, all } = told;
  const parts = [says, table(rows, { label, differ, isWishes, take })];
  return rows.length > 1 ? [...parts, picture(rows, { label, all })] : parts;
}

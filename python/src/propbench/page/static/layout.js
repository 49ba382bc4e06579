// Where cells and uses stand: in columns from what is stated to what follows, with the columns in
// bands one below the other where there are many. Linear in the size of the network.

export const CELL = { width: 132, height: 38 };
export const USE = { width: 96, height: 22 };
const GAP = { column: 42, row: 12, band: 48 };
const SWEEPS = 6;

// The nodes of a network, cells first, and who is before and behind each.
function graph(network) {
  const cells = network.cells.length;
  const place = new Map(network.cells.map((cell, at) => [cell.name, at]));
  const count = cells + network.uses.length;
  const before = Array.from({ length: count }, () => []);
  const behind = Array.from({ length: count }, () => []);
  network.uses.forEach((use, at) => {
    const own = cells + at;
    const known = [...new Set(use.cells)].filter((name) => place.has(name));
    const all = known.map((name) => place.get(name));
    const output = all.length > 1 ? place.get(use.cells[use.cells.length - 1]) : -1;
    for (const cell of all) {
      if (cell === output) {
        behind[own].push(cell);
        before[cell].push(own);
      } else {
        before[own].push(cell);
        behind[cell].push(own);
      }
    }
  });
  return { cells, count, before, behind };
}

// For each node its column. Where all that is left waits for others, the first cell goes ahead.
function columns({ cells, count, before, behind }) {
  const column = new Int32Array(count);
  const waits = Int32Array.from(before, (nodes) => nodes.length);
  const taken = new Uint8Array(count);
  const ready = [];
  for (let node = 0; node < count; node++) if (!waits[node]) ready.push(node);
  let next = 0;
  let first = 0;
  for (let left = count; left > 0; left--) {
    let node = -1;
    while (next < ready.length && node < 0) {
      if (!taken[ready[next]]) node = ready[next];
      next++;
    }
    while (node < 0) {
      if (!taken[first]) node = first;
      else first++;
    }
    taken[node] = 1;
    for (const each of before[node]) {
      if (taken[each]) column[node] = Math.max(column[node], column[each] + 1);
    }
    // (cells stand in even columns and uses in odd ones)
    if ((node < cells) === (column[node] % 2 === 1)) column[node]++;
    for (const each of behind[node]) if (!taken[each] && --waits[each] === 0) ready.push(each);
  }
  return column;
}

// The nodes of each column in an order in which few wires cross: each goes to its neighbours.
function ordered({ count, before, behind }, column) {
  const most = count ? Math.max(...column) + 1 : 0;
  const found = Array.from({ length: most }, () => []);
  for (let node = 0; node < count; node++) found[column[node]].push(node);
  const height = new Float64Array(count);
  const set = (nodes) => nodes.forEach((node, at) => { height[node] = (at + 0.5) / nodes.length; });
  found.forEach(set);
  for (let sweep = 0; sweep < SWEEPS; sweep++) {
    const near = sweep % 2 ? behind : before;
    const list = sweep % 2 ? [...found].reverse() : found;
    for (const nodes of list) {
      const wish = new Map(nodes.map((node) => {
        const others = near[node];
        const sum = others.reduce((all, each) => all + height[each], 0);
        return [node, others.length ? sum / others.length : height[node]];
      }));
      nodes.sort((one, other) => wish.get(one) - wish.get(other) || one - other);
      set(nodes);
    }
  }
  return found.filter((nodes) => nodes.length);
}

// Long columns in several beside each other.
function cut(found, rows) {
  return found.flatMap((nodes) => {
    const parts = Math.ceil(nodes.length / rows);
    const each = Math.ceil(nodes.length / parts);
    return Array.from({ length: parts }, (_, at) => nodes.slice(at * each, (at + 1) * each));
  });
}

// The middle of each node, and the size of all.
export function layout(network) {
  const whole = graph(network);
  const { cells, count, before, behind } = whole;
  const rows = Math.max(8, Math.ceil(Math.sqrt(count) * 0.9));
  const found = cut(ordered(whole, columns(whole)), rows);
  const step = CELL.height + GAP.row;
  const wide = (nodes) => (nodes[0] < cells ? CELL.width : USE.width) + GAP.column;
  const all = found.reduce((sum, nodes) => sum + wide(nodes), 0);
  const tall = Math.max(1, ...found.map((nodes) => nodes.length)) * step;
  const bands = Math.max(1, Math.round(Math.sqrt(all / (1.7 * tall))));
  const most = Math.max(700, all / bands + 200);
  const x = new Float64Array(count);
  const y = new Float64Array(count);
  let left = 0;
  let top = 0;
  let width = 0;
  let band = [];
  const end = () => {
    const high = Math.max(1, ...band.map((nodes) => nodes.length)) * step;
    for (const nodes of band) {
      const middle = (nodes.length - 1) / 2;
      nodes.forEach((node, at) => { y[node] = top + high / 2 + (at - middle) * step; });
    }
    settle(band, before, behind, y, top, top + high, step);
    top += high + GAP.band;
    width = Math.max(width, left);
    left = 0;
    band = [];
  };
  for (const nodes of found) {
    if (left > most) end();
    for (const node of nodes) x[node] = left + wide(nodes) / 2;
    left += wide(nodes);
    band.push(nodes);
  }
  end();
  return { x, y, width, height: top };
}

// Moves nodes towards their neighbours, as far as their order and the band leave room.
function settle(band, before, behind, y, top, bottom, step) {
  for (let sweep = 0; sweep < 4; sweep++) {
    for (const nodes of sweep % 2 ? [...band].reverse() : band) {
      let floor = top + step / 2;
      nodes.forEach((node, at) => {
        const inBand = (each) => y[each] >= top && y[each] <= bottom;
        const near = [...before[node], ...behind[node]].filter(inBand);
        const sum = near.reduce((all, each) => all + y[each], 0);
        const wish = near.length ? sum / near.length : y[node];
        const ceiling = bottom - step / 2 - (nodes.length - 1 - at) * step;
        y[node] = Math.min(ceiling, Math.max(floor, wish));
        floor = y[node] + step;
      });
    }
  }
}

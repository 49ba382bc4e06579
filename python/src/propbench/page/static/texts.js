// Texts for eyes. What a session says is set as text, never as markup; what can't be seen, or turns
// what stands beside it, is shown escaped; and a name is a <bdi>, which can't turn its neighbours.

const HIDDEN =
  /(?![\n\t])[\p{C}\p{Zl}\p{Zp}\u034f\u115f\u1160\u17b4\u17b5\u180b-\u180f\u3164\uffa0]/gu;

function escaped(letter) {
  const code = letter.codePointAt(0);
  const hex = code.toString(16);
  if (code < 0x100) return `\\x${hex.padStart(2, "0")}`;
  return code < 0x10000 ? `\\u${hex.padStart(4, "0")}` : `\\U${hex.padStart(8, "0")}`;
}

export const printable = (text) => String(text).replace(HIDDEN, escaped);

// Parts as nodes: a string is text.
const nodesOf = (parts) => parts.map((part) => (part instanceof Node ? part : printable(part)));

// A node with texts and nodes in it.
export function made(tag, attributes, ...inner) {
  const node = document.createElement(tag);
  for (const [name, value] of Object.entries(attributes)) {
    if (name === "class") node.className = value;
    else if (typeof value === "boolean") node.toggleAttribute(name, value);
    else node.setAttribute(name, value);
  }
  node.append(...nodesOf(inner));
  return node;
}

// A node of a picture, with a text.
export function drawn(tag, attributes, text = "") {
  const node = document.createElementNS("http://www.w3.org/2000/svg", tag);
  for (const [name, value] of Object.entries(attributes)) node.setAttribute(name, value);
  if (text) node.textContent = printable(text);
  return node;
}

// Has a node say these parts, texts or nodes, and nothing else.
export function tell(node, ...parts) {
  node.replaceChildren(...nodesOf(parts));
}

// A name, or a value that may hold one.
export const named = (text) => made("bdi", {}, text);

// Names with something between them.
export const joined = (names, between) =>
  names.flatMap((name, at) => (at ? [between, named(name)] : [named(name)]));

// What an answer has by name. (As an object it would have `constructor` too.)
export const byName = (told) => new Map(Object.entries(told));

// Elements of the page. Text that was fetched or typed becomes text, never markup.
//
// Views describe what is to be shown, and `fill` changes what differs of that, so that a browser lays little out again.

export const byId = (id) => document.getElementById(id);

/** What each element that was made of a description shows. */
const SHOWN = new WeakMap();

/**
 * A description of an element. Attributes that are null or false are left out; those that begin with `on` are
 * listeners, which stay those of the first time. `key` is no attribute: rows that move up or down keep their elements
 * by it.
 */
export function element(tag, attributes = {}, ...children) {
  return { tag, attributes, children: shown(children) };
}

export const span = (classes, ...children) => element("span", classes ? { class: classes } : {}, ...children);

/** Has an element hold what is described, by changing what differs from what it holds. */
export function fill(it, ...children) {
  const all = shown(children);
  moveRows(it, all);
  let node = it.firstChild;
  for (const wanted of all) {
    const next = node?.nextSibling ?? null;
    if (node && isAlike(node, wanted)) update(node, wanted);
    else if (node) node.replaceWith(make(wanted));
    else it.append(make(wanted));
    node = next;
  }
  while (node) {
    const next = node.nextSibling;
    node.remove();
    node = next;
  }
}

/** Where rows move up or down, takes away or puts in what is in front of those that stay. */
function moveRows(it, all) {
  const keyOf = (node) => SHOWN.get(node)?.attributes.key;
  const key = all[0]?.attributes?.key;
  if (key === undefined || !it.firstChild) return;
  const gone = [...it.childNodes].findIndex((node) => keyOf(node) === key);
  for (let count = gone; count > 0; count--) it.firstChild.remove();
  const added = gone < 0 ? all.findIndex(({ attributes }) => attributes.key === keyOf(it.firstChild)) : 0;
  it.prepend(...all.slice(0, Math.max(0, added)).map(make));
}

/** The element of a description. */
export function make(wanted) {
  if (typeof wanted === "string") return document.createTextNode(wanted);
  const made = document.createElement(wanted.tag);
  SHOWN.set(made, { attributes: {} });
  for (const name in wanted.attributes) {
    if (name.startsWith("on")) made.addEventListener(name.slice(2), wanted.attributes[name]);
  }
  update(made, wanted);
  return made;
}

/** The text of a description. */
export const plainText = (wanted) => (typeof wanted === "string" ? wanted : wanted.children.map(plainText).join(""));

/** Whether a node can be changed to what is described. */
function isAlike(node, wanted) {
  if (typeof wanted === "string") return node.nodeType === Node.TEXT_NODE;
  return node.localName === wanted.tag && SHOWN.has(node);
}

function update(node, wanted) {
  if (typeof wanted === "string") {
    if (node.data !== wanted) node.data = wanted;
    return;
  }
  const old = SHOWN.get(node).attributes;
  SHOWN.set(node, wanted);
  for (const name in wanted.attributes) set(node, name, old[name], wanted.attributes[name]);
  for (const name in old) if (!(name in wanted.attributes)) set(node, name, old[name], null);
  fill(node, wanted.children);
}

/** Sets an attribute. A user changes the state of a field beside it. */
function set(node, name, old, value) {
  const isState = (name === "checked" || name === "value") && node.localName === "input";
  if (isState && node[name] !== value) node[name] = value;
  if (isState || old === value || name === "key" || name.startsWith("on")) return;
  if (value === null || value === undefined || value === false) node.removeAttribute(name);
  else node.setAttribute(name, value === true ? "" : value);
}

const isShown = (it) => it !== null && it !== undefined && it !== false && it !== "";
const shown = (children) => children.flat(4).filter(isShown);

/** Names of classes, those that apply. */
export const classes = (...names) => names.filter(Boolean).join(" ");

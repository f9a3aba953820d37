// The page of the editor. It has a tree of the document with the generated texts at its nodes. Each keystroke makes edits of
// it, which are done on the tree here and on the document in the library; that tells which texts are others now. So no text
// is looked for by a path that has moved.
//
// An element is {name, attributes, children, view, boxes}, a text {text, view}: what they are in the document, the node that
// shows them, and for each kind of box the node that shows its text.

const INLINE = new Set("a abbr b cite code dfn em i kbd q s samp small span strong sub sup u var".split(" "));
const KINDS = ["marker", "before", "after"];
// The names of characters that the library knows beside those of XML.
const NAMED = {nbsp: 160, sect: 167, copy: 169, laquo: 171, shy: 173, middot: 183, raquo: 187, times: 215, ndash: 8211,
  mdash: 8212, lsquo: 8216, rsquo: 8217, ldquo: 8220, rdquo: 8221, hellip: 8230};
const ENTITIES = Object.entries(NAMED).map(([name, number]) => `<!ENTITY ${name} "&#${number};">`);
const DECLARED = `<!DOCTYPE x [${ENTITIES.join("")}]>`;
const BEFORE_DOCTYPE = /^((?:\s|<!--[^]*?-->|<\?[^]*?\?>)*)<!DOCTYPE\s[^>]*>/i;
const DECLARATION = /^\s*<\?xml\s[^]*?\?>/;

const at = id => document.getElementById(id);

// Reading

/** The tree of a source; null where the browser reads none. */
function treeOf(source) {
  const plain = source.replace(/\r\n?/g, "\n").replace(DECLARATION, "").replace(BEFORE_DOCTYPE, "$1");
  const read = new DOMParser().parseFromString(DECLARED + plain, "application/xhtml+xml");
  return read.getElementsByTagName("parsererror").length ? null : elementOf(read.documentElement);
}

function elementOf(node) {
  const element = {name: node.nodeName, attributes: new Map([...node.attributes].map(it => [it.name, it.value])), children: []};
  for (const child of node.childNodes) {
    const last = element.children.at(-1);
    if (child.nodeType === Node.ELEMENT_NODE) element.children.push(elementOf(child));
    else if (!(child instanceof Text) || !child.data) continue;
    else if (last?.text) last.text += child.data;
    else element.children.push({text: child.data});
  }
  return element;
}

// Edits

/** Whether two nodes are the same with all under them. */
function isSame(one, other) {
  if (one.text !== other.text || one.name !== other.name) return false;
  return one.text !== undefined || hasSameAttributes(one, other)
    && one.children.length === other.children.length && one.children.every((it, place) => isSame(it, other.children[place]));
}

function hasSameAttributes(one, other) {
  return one.attributes.size === other.attributes.size
    && [...one.attributes].every(([name, value]) => other.attributes.get(name) === value);
}

/** Whether edits of attributes and children make the one node of the other. A value with a line feed stands in no edit. */
function canBecome(one, other) {
  return one.name !== undefined && one.name === other.name
    && [...other.attributes].every(([name, value]) => !value.includes("\n") || one.attributes.get(name) === value);
}

/** Edits that make the element at this path the same as another. */
function editsBetween(path, element, wanted) {
  const edits = [];
  for (const name of element.attributes.keys()) {
    if (!wanted.attributes.has(name)) edits.push({kind: "unset", path, name});
  }
  for (const [name, value] of wanted.attributes) {
    if (element.attributes.get(name) !== value) edits.push({kind: "set", path, name, value});
  }
  const old = element.children, now = wanted.children, shorter = Math.min(old.length, now.length);
  let front = 0, back = 0;
  while (front < shorter && isSame(old[front], now[front])) front++;
  while (back < shorter - front && isSame(old.at(-1 - back), now.at(-1 - back))) back++;
  const gone = old.slice(front, old.length - back), come = now.slice(front, now.length - back);
  while (gone.length > come.length) edits.push({kind: "remove", path: [...path, front + gone.length - 1]}), gone.pop();
  come.forEach((node, place) => {
    const here = [...path, front + place];
    if (gone[place] && canBecome(gone[place], node)) return edits.push(...editsBetween(here, gone[place], node));
    if (gone[place]) edits.push({kind: "remove", path: here});
    edits.push({kind: "insert", path, index: front + place, node});
  });
  return edits;
}

/** The line by which the library does an edit. */
function lineOf(edit) {
  const path = "/" + edit.path.join("/");
  switch (edit.kind) {
    case "insert": return `insert ${path} ${edit.index} ${markupOf(edit.node)}`;
    case "remove": return `remove ${path}`;
    case "set": return `set ${path} ${edit.name} ${edit.value}`;
    case "unset": return `unset ${path} ${edit.name}`;
  }
}

const written = (text, kept) => text.replace(kept, it => `&#${it.codePointAt(0)};`);

function markupOf(node) {
  if (node.text !== undefined) return written(node.text, /[&<>\r\n\uFEFF]/g);
  const attributes = [...node.attributes].map(([name, value]) => ` ${name}="${written(value, /[&<"\t\r\n]/g)}"`).join("");
  return `<${node.name}${attributes}>${node.children.map(markupOf).join("")}</${node.name}>`;
}

// The tree and what is shown of it

let root = null;

const nodeAt = path => path.reduce((node, place) => node.children[place], root);

function doEdit(edit) {
  const node = nodeAt(edit.kind === "remove" ? edit.path.slice(0, -1) : edit.path);
  switch (edit.kind) {
    case "insert":
      node.inside.insertBefore(viewOf(edit.node), node.children[edit.index]?.view ?? null);
      return node.children.splice(edit.index, 0, edit.node);
    case "remove": return node.children.splice(edit.path.at(-1), 1)[0].view.remove();
    case "set": return node.attributes.set(edit.name, edit.value);
    case "unset": return node.attributes.delete(edit.name);
  }
}

/** Makes the nodes that show a node and all under it, still without generated texts. */
function viewOf(node) {
  if (node.text !== undefined) return node.view = document.createTextNode(node.text);
  node.view = made("span", `element ${INLINE.has(node.name) ? "inline" : "block"}`);
  node.inside = made("span", "children");
  node.boxes = Object.fromEntries(KINDS.map(kind => [kind, made("span", `box ${kind}`)]));
  for (const it of Object.values(node.boxes)) it.hidden = true;
  node.inside.append(...node.children.map(viewOf));
  node.view.append(node.boxes.marker, node.boxes.before, node.inside, node.boxes.after);
  return node.view;
}

function made(name, kind) {
  const node = document.createElement(name);
  node.className = kind;
  return node;
}

function put([path, kind, text]) {
  const box = nodeAt(path).boxes[kind];
  box.textContent = text ?? "";
  box.hidden = text === null;
  box.classList.remove("told");
  void box.offsetWidth;
  box.classList.add("told");
}

// What the library is asked

let number = 0;

async function ask(what, words) {
  const answer = await fetch(what, {method: "POST", body: JSON.stringify(words)});
  return answer.json();
}

/** Opens the document as it stands in the page, if it is one. */
async function open(source, css, tree) {
  const said = await ask("/open", {xhtml: source, css});
  if (said.fault) return at("fault").textContent = said.fault;
  number = said.number;
  root = tree;
  at("shown").replaceChildren(...tree ? [viewOf(tree)] : []);
  at("fault").textContent = tree ? "" : "a document, but the browser does not read it";
  if (tree) said.changes.forEach(put);
  at("done").textContent = `open: ${said.changes.length} texts`;
}

async function follow(source, css) {
  const tree = treeOf(source);
  if (!root || !tree || !canBecome(root, tree)) return open(source, css, tree);
  const edits = editsBetween([], root, tree), lines = edits.map(lineOf);
  at("fault").textContent = "";
  if (!lines.length) return;
  const said = await ask("/apply", {number, lines});
  if (said.fault) return open(source, css, tree);
  edits.forEach((edit, place) => {
    doEdit(edit);
    said.changes[place].forEach(put);
  });
  at("done").textContent = `${lines.join("; ")}: ${said.changes.flat().length} texts`;
}

async function restyle(source, css) {
  const said = await ask("/sheet", {number, css});
  if (said.fault) return open(source, css, treeOf(source));
  said.changes.forEach(put);
  at("done").textContent = `sheet: ${said.changes.length} texts`;
}

// Keystrokes. While one is being followed others may come, and then the last of them is followed.

const followed = {document: null, sheet: null};
let isBusy = false;

async function keep() {
  if (isBusy) return;
  isBusy = true;
  for (;;) {
    const source = at("document").value, css = at("sheet").value;
    if (source === followed.document && css === followed.sheet) break;
    const isNewSheet = root && css !== followed.sheet, isNewDocument = source !== followed.document;
    followed.document = source;
    followed.sheet = css;
    if (isNewSheet) await restyle(source, css);
    if (isNewDocument) await follow(source, css);
  }
  isBusy = false;
  document.body.dataset.followed = Number(document.body.dataset.followed ?? 0) + 1;
}

at("document").oninput = at("sheet").oninput = keep;
keep();

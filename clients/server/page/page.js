// The page of the gateway: documents, one of them as a tree, its schema, queries, edits, and the changes as they are made.

const $ = (id) => document.getElementById(id);

// How many children of a value, changes and letters of a patch are shown at once, and how many nodes of a query are marked.
const MOST_CHILDREN = 200, MOST_CHANGES = 100, MOST_LETTERS = 4000, MOST_MARKS = 500;

// How many changes that were made before the page was opened are shown.
const EARLIER_CHANGES = 20;

// How many operations and letters of a change are shown in the list of changes.
const MOST_OPERATIONS = 3, MOST_LETTERS_OF_CHANGE = 60;

// How often a schema is saved again if other clients change its document meanwhile.
const ATTEMPTS = 10;

const state = { name: null, rev: null, doc: undefined, names: [], last: null, marks: new Set(), chosen: "", began: null,
  earlier: EARLIER_CHANGES };


// JSON with whole numbers of 64 bits, which JavaScript has as BigInt only.

const INTEGER = `\u0000${Math.random()}:`;

function parse(text) {
  const marked = text.replace(/"[^"\\]*(?:\\.[^"\\]*)*"|-?\d{16,}(?![\d.eE])/g,
    (part) => part[0] === '"' ? part : JSON.stringify(INTEGER + part));
  return JSON.parse(marked, (_, value) =>
    typeof value === "string" && value.startsWith(INTEGER) ? BigInt(value.slice(INTEGER.length)) : value);
}

function textOf(value, indent) {
  const quoted = JSON.stringify(INTEGER).slice(1, -1).replace(/[.*+?^${}()|[\]\\]/g, "\\$&");
  const text = JSON.stringify(value, (_, part) => typeof part === "bigint" ? INTEGER + part : part, indent);
  return text.replace(new RegExp(`"${quoted}(-?\\d+)"`, "g"), "$1");
}

// The value of a text that somebody has typed. What the store would refuse of it is shown with its line and column.
function typed(text) {
  let value;
  try {
    value = parse(text);
  } catch {
    throw mistyped(text, stopOf(text), 11, "not-json", "This is not JSON yet.");
  }
  const [place, what] = firstBeyond(text);
  if (what === LEVEL) throw mistyped(text, [place, what], 13, "depth", "The document would nest too deep.");
  if (what) throw mistyped(text, [place, what], 12, "number", "The store has no such number.");
  return value;
}

function mistyped(text, [place, what], number, name, title) {
  const lines = text.slice(0, place).split("\n");
  return new Refused({ number, name, title, detail: `line ${lines.length}, column ${[...lines.at(-1)].length + 1}: ${what}.` });
}

// The tokens of JSON, and blanks (RFC 8259, section 2).
const TOKEN = new RegExp([/"[^"\\\u0000-\u001f]*(?:\\(?:["\\/bfnrt]|u[\da-fA-F]{4})[^"\\\u0000-\u001f]*)*"/,
  /-?(?:0|[1-9]\d*)(?:\.\d+)?(?:[eE][+-]?\d+)?/, /true|false|null|[{}[\],:]/].map((part) => part.source).join("|"), "y");
const BLANKS = /[ \t\n\r]*/y;

// What may come next in a JSON text.
const VALUE = "a value", ITEM = "a value or `]`", NAME = "a name in double quotes", MEMBER = "a name in double quotes or `}`",
  COLON = "`:`", REST = "`,` or the end of what is begun", NOTHING = "nothing more";

// What may come after a token; nothing if the token may not come.
function after(wanted, token, within) {
  const end = { "[": "]", "{": "}" }[within.at(-1)];
  if (token === end && [ITEM, MEMBER, REST].includes(wanted)) {
    within.pop();
    return within.length ? REST : NOTHING;
  }
  if (wanted === REST) return token === "," ? (end === "}" ? NAME : VALUE) : undefined;
  if (wanted === COLON) return token === ":" ? VALUE : undefined;
  if (wanted === NAME || wanted === MEMBER) return token[0] === '"' ? COLON : undefined;
  if (wanted === NOTHING || "]}:,".includes(token)) return undefined;
  if (!"[{".includes(token)) return within.length ? REST : NOTHING;
  within.push(token);
  return token === "[" ? ITEM : MEMBER;
}

// The place at which a text goes on as no JSON text does, and what may come there.
function stopOf(text) {
  const within = [];
  for (let place = 0, wanted = VALUE; ;) {
    BLANKS.lastIndex = place;
    place += BLANKS.exec(text)[0].length;
    TOKEN.lastIndex = place;
    const token = TOKEN.exec(text)?.[0];
    const next = token && after(wanted, token, within);
    if (!next) {
      const isWord = wanted.startsWith(VALUE) && /^\p{L}/u.test(text.slice(place));
      return [place, `${wanted} is expected${isWord ? "; a text needs double quotes, as \"bolts\"" : ""}`];
    }
    wanted = next;
    place += token.length;
  }
}

// The most levels of a document, and the numbers that it may have.
const MOST_LEVELS = 64, LEVEL = `level ${MOST_LEVELS + 1} begins`, LEAST = -(2n ** 63n), MOST = 2n ** 63n - 1n;

// The place in a JSON text of the first level or number that no document has, and what it is; nothing if there is none.
function firstBeyond(text) {
  let level = 0;
  for (const { 0: token, index } of text.matchAll(/"[^"\\]*(?:\\.[^"\\]*)*"|[[\]{}]|-?\d[\d.eE+-]*/g)) {
    if (token === "[" || token === "{") level += 1;
    else if (token === "]" || token === "}") level -= 1;
    else if (token[0] === '"') continue;
    else if (/[.eE]/.test(token)) return [index, "a number is not whole: send a whole number, or a text"];
    else if (BigInt(token) < LEAST || BigInt(token) > MOST) return [index, "a number is beyond 64 bits: send a text"];
    if (level > MOST_LEVELS) return [index, LEVEL];
  }
  return [];
}

const isContainer = (value) => value !== null && typeof value === "object";
const escaped = (token) => String(token).replaceAll("~", "~0").replaceAll("/", "~1");
const unescaped = (token) => token.replaceAll("~1", "/").replaceAll("~0", "~");


// Requests.

class Refused extends Error {
  constructor(problem) {
    super(problem.detail || problem.title);
    this.problem = problem;
  }
}

function withToken(headers = {}) {
  const token = sessionStorage.getItem("token");
  return token ? { ...headers, Authorization: `Bearer ${token}` } : headers;
}

async function ask(path, method = "GET", body, headers = {}) {
  let response;
  try {
    response = await fetch(path, { method, body, headers: withToken(headers), cache: "no-store" });
  } catch {
    const lost = method === "GET" ? "" : "The change is stored, or not at all: the document shows which, once this page is live. ";
    throw new Refused({ title: "The gateway does not answer.", detail: `${lost}This page connects again by itself.` });
  }
  if (response.ok) return response;
  const problem = await response.json().catch(() => ({ title: `HTTP status ${response.status}` }));
  if (response.status === 401) askForToken();
  throw new Refused({ status: response.status, ...problem });
}

const valueAt = async (path) => parse(await (await ask(path)).text());
const documentPath = (name) => `/documents/${encodeURIComponent(name)}`;
const schemaPath = (name) => `/schemas/${encodeURIComponent(name)}`;


// What was done, and why something was refused.

function element(kind, properties = {}, ...children) {
  const made = Object.assign(document.createElement(kind), properties);
  made.append(...children);
  return made;
}

function told(place, good, ...children) {
  place.replaceChildren(element("div", { className: `told ${good ? "good" : "bad"}` }, ...children));
  place.scrollIntoView({ block: "nearest" });
}

// A change that is stored, with the warnings of its schema.
function toldDone(place, what, { warnings = [] }) {
  told(place, true, what, ...warnings.map((warning) => element("p", { className: "warning" }, `Warning: ${warning}.`)));
}

// A refusal: what it means, and apart from that the place of the fault and what to do.
function partsOf(error) {
  const problem = error instanceof Refused ? error.problem : { title: "This page failed.", detail: error.message };
  const number = problem.number === undefined ? "" : ` (${problem.number} ${problem.name})`;
  const parts = [element("strong", {}, `${problem.status ? "Refused: " : ""}${problem.title}${number}`)];
  if (problem.op !== undefined) parts.push(element("p", {}, `Operation ${problem.op} of the patch is at fault.`));
  if (problem.errors?.length) {
    parts.push(element("ul", {}, ...problem.errors.map((fault) => element("li", {},
      element("code", {}, fault.place || "the document"), `: ${fault.detail} `,
      element("span", {}, "(schema ", element("code", {}, fault.keyword || "/"), ")")))));
  } else if (problem.detail) {
    parts.push(element("p", {}, problem.detail));
    if (problem.advice) parts.push(element("p", {}, problem.advice));
  }
  return parts;
}

const toldProblem = (place, error) => told(place, false, ...partsOf(error));


// The token.

function askForToken() {
  $("main").hidden = true;
  $("token-form").hidden = false;
  $("token-error").textContent = sessionStorage.getItem("token") ? "This is not the token of the store." : "";
  sessionStorage.removeItem("token");
  live(false, "waiting for the token");
  $("token").focus();
}

$("token-form").addEventListener("submit", (event) => {
  event.preventDefault();
  sessionStorage.setItem("token", $("token").value.trim());
  $("token").value = "";
  $("token-form").hidden = true;
  $("main").hidden = false;
  begin();
});


// The room of the store.

const grouped = (number) => Number(number).toLocaleString("en");

async function showStatus() {
  const status = await valueAt("/status");
  // The changes are followed from here on, so that none is missed that is made before the stream begins.
  state.began ??= Number(status.seq);
  state.last ??= String(Math.max(0, Number(status.seq) - state.earlier));
  const share = status.capacity ? 100 * Number(status.used) / Number(status.capacity) : 0;
  const rounded = share > 0 && share < 1 ? "under 1" : String(Math.round(share));
  $("used").style.width = `${Math.max(share, share > 0 ? 1 : 0)}%`;
  $("bar").classList.toggle("full", share > 90);
  $("bar").setAttribute("aria-valuenow", String(Math.round(share)));
  $("bar").setAttribute("aria-valuetext", `${rounded} % of ${grouped(status.capacity)} bytes`);
  const figures = [`${rounded} % of ${grouped(status.capacity)} bytes used`,
    `${grouped(status.documents)} document${Number(status.documents) === 1 ? "" : "s"}`, `change ${grouped(status.seq)}`];
  // A line ends between two figures, and not in one.
  $("figures").textContent = figures.map((figure) => figure.replaceAll(" ", "\u00a0")).join(" · ");
}


// The names.

async function showNames() {
  state.names = await valueAt("/documents");
  listNames();
  if ($("new-panel").open) offerSchemas();
}

function listNames() {
  const wanted = $("filter").value.trim().toLowerCase();
  $("names").replaceChildren(...state.names.filter((name) => name.toLowerCase().includes(wanted)).map((name) => {
    const link = element("a", { href: `#/${name}` }, name);
    if (name === state.name) link.setAttribute("aria-current", "true");
    return element("li", {}, link);
  }));
  $("no-names").hidden = $("names").childElementCount > 0;
  $("no-names").textContent = state.names.length ? "No name has this in it." : "No documents yet.";
  $("no-text").textContent = state.names.length ? "Choose one from the list, or create one." : "Create the first one.";
}

// The schemas that a new document may have: one that is written, or that of a document.
function offerSchemas() {
  const chosen = $("new-as").value;
  const offered = state.names.map((name) => element("option", { value: name, selected: name === chosen }, `as of ${name}`));
  $("new-as").replaceChildren($("new-as").firstElementChild, ...offered);
  showSchemaField();
}

function showSchemaField() {
  $("new-schema-field").hidden = $("new-as").value !== "";
  $("new-schema").required = $("new-as").value === "";
}

$("new-panel").addEventListener("toggle", () => { if ($("new-panel").open) offerSchemas(); });
$("new-as").addEventListener("change", showSchemaField);

$("make").addEventListener("click", () => {
  $("new-panel").open = true;
  $("new-name").focus();
});

// Shows where the open document is in the list, which is moved and not the page.
function revealName() {
  const list = $("names"), link = list.querySelector("[aria-current]");
  if (!link) return;
  const above = link.getBoundingClientRect().top - list.getBoundingClientRect().top;
  if (above < 0 || above + link.clientHeight > list.clientHeight) list.scrollTop += above - list.clientHeight / 2;
}

$("filter").addEventListener("input", listNames);

// Makes a document under the schema of another, or the one that is written.
function create(name, doc, as) {
  const fields = { "Content-Type": "application/json", "If-None-Match": "*" };
  if (as) fields.Link = `<${schemaPath(as)}>; rel="describedby"`;
  const schema = as ? "" : `?schema=${encodeURIComponent(textOf(typed($("new-schema").value)))}`;
  return ask(documentPath(name) + schema, "PUT", textOf(doc), fields);
}

$("new-form").addEventListener("submit", async (event) => {
  event.preventDefault();
  const name = $("new-name").value;
  try {
    const response = await create(name, typed($("new-doc").value), $("new-as").value);
    toldDone($("new-result"), `${name} is created.`, await response.json());
    $("new-name").value = "";
    await showNames();
    location.hash = `/${name}`;
  } catch (error) {
    toldProblem($("new-result"), error);
  }
});


// A document.

async function showDocument(name) {
  const another = name !== state.name;
  if (another) {
    Object.assign(state, { name, chosen: "", marks: new Set() });
    for (const id of ["edit-result", "edit-conflict", "schema-result", "delete-result"]) $(id).replaceChildren();
    $("query-result").textContent = "";
    $("query").value = "";
  }
  listNames();
  $("with-document").hidden = !name;
  $("no-document").hidden = Boolean(name);
  $("no-title").textContent = "No document is open";
  document.title = name ? `${name} – jpstore` : "jpstore";
  if (!name) return;
  try {
    const response = await ask(documentPath(name));
    const doc = parse(await response.text());
    if (name !== state.name) return;
    state.doc = doc;
    state.rev = response.headers.get("ETag");
  } catch (error) {
    const gone = error instanceof Refused && error.problem.number === 21;
    // What was shown before, and what is being written, is kept if the gateway does not answer.
    if (gone || another) leave(gone ? `There is no document ${name}` : `${name} cannot be read: ${error.message}`);
    return;
  }
  $("title").textContent = name;
  $("rev").textContent = state.rev.replaceAll('"', "");
  drawTree();
  if (another) {
    revealName();
    chooseValue("");
    $("schema").value = "";
    if ($("schema-panel").open) await showSchema();
  } else {
    keepEdit();
  }
}

function leave(why) {
  state.name = null;
  document.title = "jpstore";
  $("with-document").hidden = true;
  $("no-document").hidden = false;
  $("no-title").textContent = why;
  listNames();
}

$("delete").addEventListener("click", async () => {
  const name = state.name;
  if (!confirm(`Delete the document ${name}?`)) return;
  try {
    await ask(documentPath(name), "DELETE", undefined, { "If-Match": state.rev });
    history.replaceState(null, "", location.pathname);
    leave(`${name} is deleted`);
    await showNames();
  } catch (error) {
    if (error.problem?.number === 24) await showDocument(name);
    toldProblem($("delete-result"), error);
  }
});


// The tree. The children of a value are made when it is opened, since a document may have very many.

function drawTree() {
  const open = new Set([...$("tree").querySelectorAll("details[open]")].map((each) => each.dataset.pointer));
  $("tree").replaceChildren(drawn("", "", state.doc, open));
  // What a query has found is shown again, in what was open.
  const wasOpen = (pointer) => pointer === "" || (open.has(pointer) && wasOpen(parentOf(pointer)));
  for (const pointer of state.marks) if (wasOpen(parentOf(pointer))) reveal(pointer);
  mark();
}

function drawn(pointer, key, value, open) {
  return isContainer(value) ? drawnContainer(pointer, key, value, open) : drawnLeaf(pointer, key, value);
}

function keyOf(key) {
  return key === "" ? "" : element("span", { className: "key" }, `${key}: `);
}

function drawnLeaf(pointer, key, value) {
  const kind = typeof value === "string" ? "string" : typeof value === "number" || typeof value === "bigint" ? "number" : "word";
  const leaf = element("button", { type: "button", className: "leaf" }, keyOf(key),
    element("span", { className: kind }, textOf(value)));
  leaf.dataset.pointer = pointer;
  leaf.addEventListener("click", () => {
    chooseValue(pointer);
    $("edit-panel").open = true;
    $("edit-panel").scrollIntoView({ block: "nearest" });
  });
  return leaf;
}

function drawnContainer(pointer, key, value, open) {
  const count = Array.isArray(value) ? value.length : Object.keys(value).length;
  const [left, right] = Array.isArray(value) ? "[]" : "{}";
  const each = Array.isArray(value) ? "item" : "member";
  const told = count ? `${left} ${grouped(count)} ${each}${count === 1 ? "" : "s"} ${right}` : left + right;
  const summary = element("summary", {}, keyOf(key), element("span", { className: "count" }, told));
  const inside = element("div");
  const details = element("details", {}, summary, inside);
  summary.dataset.pointer = details.dataset.pointer = pointer;
  const children = childrenOf(inside, pointer, value, open);
  const fill = () => { if (!inside.childElementCount) children.begin(); };
  details.addEventListener("toggle", () => { if (details.open) { fill(); mark(); } });
  details.fill = fill;
  details.show = (child) => { if (inside.childElementCount) children.show(child); };
  summary.addEventListener("click", () => chooseValue(pointer));
  if (pointer === "" || open.has(pointer)) {
    fill();
    details.open = true;
  }
  return details;
}

// The children of a value: the first are drawn at once, and in place of others there are buttons.
function childrenOf(inside, pointer, value, open) {
  const keys = Array.isArray(value) ? null : Object.keys(value);
  const count = keys ? keys.length : value.length;
  const draw = (place) => {
    const key = keys ? keys[place] : place;
    return drawn(`${pointer}/${escaped(key)}`, keys ? JSON.stringify(key) : String(key), value[key], open);
  };
  const some = (from, to) => Array.from({ length: to - from }, (_, index) => draw(from + index));
  const button = (from, to) => {
    if (from >= to) return [];
    const more = element("button", { type: "button", className: "more" }, `show more (${grouped(to - from)} left)`);
    const show = (begin) => {
      const end = Math.min(begin + MOST_CHILDREN, to);
      more.replaceWith(...button(from, begin), ...some(begin, end), ...button(end, to));
    };
    more.addEventListener("click", () => { show(from); mark(); });
    Object.assign(more, { show, has: (place) => from <= place && place < to });
    return [more];
  };
  return {
    begin: () => inside.append(...some(0, Math.min(count, MOST_CHILDREN)), ...button(Math.min(count, MOST_CHILDREN), count)),
    // Draws a child, with those around it.
    show: (child) => {
      const token = unescaped(child.slice(pointer.length + 1));
      const place = keys ? keys.indexOf(token) : Number(token);
      [...inside.children].find((each) => each.has?.(place))?.show(place - place % MOST_CHILDREN);
    },
  };
}

function parentOf(pointer) {
  return pointer.slice(0, Math.max(0, pointer.lastIndexOf("/")));
}

function detailsAt(pointer) {
  return placeOf(pointer)?.closest("details");
}

function placeOf(pointer) {
  return $("tree").querySelector(`:is(.leaf, summary)[data-pointer="${CSS.escape(pointer)}"]`);
}

// Opens all that is around a value, and draws it.
function reveal(pointer) {
  const tokens = pointer.split("/").slice(1).map((token) => `/${token}`);
  for (let count = 0; count < tokens.length; count += 1) {
    const details = detailsAt(tokens.slice(0, count).join(""));
    if (!details) return;
    details.fill();
    details.open = true;
    details.show(tokens.slice(0, count + 1).join(""));
  }
}

function mark() {
  for (const each of $("tree").querySelectorAll(".leaf, summary")) {
    each.classList.toggle("marked", state.marks.has(each.dataset.pointer));
    each.classList.toggle("chosen", each.dataset.pointer === state.chosen);
  }
}


// Queries.

// The JSON Pointer of a normalized path (RFC 9535, section 2.7).
function pointerOf(path) {
  const escapes = { b: "\b", t: "\t", n: "\n", f: "\f", r: "\r" };
  let pointer = "";
  for (const [, name, index] of path.matchAll(/\['((?:[^'\\]|\\.)*)'\]|\[(\d+)\]/gu)) {
    const token = index ?? name.replace(/\\(?:u([0-9a-f]{4})|(.))/g,
      (_, code, letter) => code ? String.fromCharCode(parseInt(code, 16)) : escapes[letter] ?? letter);
    pointer += `/${escaped(token)}`;
  }
  return pointer;
}

$("query-form").addEventListener("submit", async (event) => {
  event.preventDefault();
  const query = $("query").value.trim();
  state.marks = new Set();
  $("query-result").className = "hint";
  if (!query) {
    $("query-result").textContent = "";
    mark();
    return;
  }
  try {
    const response = await ask(`${documentPath(state.name)}?query=${encodeURIComponent(query)}`);
    const nodes = parse(await response.text()), warning = response.headers.get("Jpstore-Warning");
    const pointers = nodes.slice(0, MOST_MARKS).map((node) => pointerOf(node.path));
    state.marks = new Set(pointers);
    pointers.forEach(reveal);
    mark();
    placeOf(pointers[0] ?? "")?.scrollIntoView({ block: "nearest" });
    $("query-result").textContent = nodes.length === 0 ? `No value is found${warning ? `: ${warning}` : ""}.` : nodes.length === 1 ? "1 value is marked." : nodes.length > MOST_MARKS
      ? `${grouped(nodes.length)} values are found, and the first ${MOST_MARKS} are marked.` : `${nodes.length} values are marked.`;
  } catch (error) {
    mark();
    $("query-result").className = "error";
    $("query-result").replaceChildren(...partsOf(error));
  }
});


// Edits: one operation of a JSON Patch, made only at the revision that is shown.

function at(pointer) {
  let value = state.doc;
  for (const token of pointer.split("/").slice(1).map(unescaped)) {
    if (!isContainer(value) || !Object.hasOwn(value, token)) return undefined;
    value = value[token];
  }
  return value;
}

// What the edit began with: the revision, the text that was in the field, and the value that was at the place.
let begun = { rev: null, text: "", value: undefined };

// The text of the value at the place that is edited; undefined if there is none.
function valueAtPointer() {
  const value = at($("pointer").value);
  return value === undefined ? undefined : textOf(value);
}

function beginEdit() {
  begun = { rev: state.rev, text: $("value").value, value: valueAtPointer() };
  $("edit-conflict").replaceChildren();
  showPatch();
}

function chooseValue(pointer) {
  state.chosen = pointer;
  $("pointer").value = pointer;
  $("op").value = "replace";
  $("value").value = textOf(at(pointer) ?? null, 2);
  $("edit-result").replaceChildren();
  beginEdit();
  mark();
}

// Whether the value is already as the edit would have it, as after a change whose answer was lost.
function isMade() {
  try {
    return ["replace", "add"].includes($("op").value) && textOf(valueNow()) === valueAtPointer();
  } catch {
    return false;
  }
}

// After the document was read again: an edit goes on if its value is as it was. Else it is not sent unseen.
function keepEdit() {
  if (isMade()) {
    beginEdit();
  } else if (valueAtPointer() === begun.value) {
    begun.rev = state.rev;
    $("edit-conflict").replaceChildren();
  } else if ($("value").value === begun.text && $("op").value === "replace") {
    chooseValue($("pointer").value);
  } else {
    const take = element("button", { type: "button" }, "Take the new value");
    const keep = element("button", { type: "button" }, "Keep mine");
    take.addEventListener("click", () => chooseValue($("pointer").value));
    keep.addEventListener("click", beginEdit);
    $("edit-conflict").replaceChildren(element("div", { className: "told bad" },
      element("strong", {}, "Another client has changed this value meanwhile."),
      element("p", {}, "It is now ", element("code", {}, shortened(valueAtPointer() ?? "removed")), "."), take, keep));
  }
  showPatch();
}

// The value that was read last from the field, since a long one takes a while.
let read = { text: null, value: undefined };

function valueNow() {
  const text = $("value").value;
  if (read.text !== text) read = { text, value: typed(text) };
  return read.value;
}

function patchNow() {
  const operation = { op: $("op").value, path: $("pointer").value };
  if (operation.op !== "remove") operation.value = valueNow();
  const text = textOf([operation]);
  return text.length > 80 ? textOf([operation], 2) : text;
}

function showPatch() {
  $("value-field").hidden = $("op").value === "remove";
  let text;
  try {
    text = patchNow();
  } catch (error) {
    text = `${error.problem?.title ?? "This page failed."}\n${error.message}`;
  }
  if (text.length > MOST_LETTERS) text = `${text.slice(0, MOST_LETTERS)}\n.. and ${grouped(text.length - MOST_LETTERS)} letters more`;
  $("patch").textContent = `PATCH ${documentPath(state.name ?? "")}\nIf-Match: ${begun.rev}\n` +
    `Content-Type: application/json-patch+json\n\n${text}`;
}

for (const id of ["op", "value"]) $(id).addEventListener("input", showPatch);
$("pointer").addEventListener("input", beginEdit);

$("edit-form").addEventListener("submit", async (event) => {
  event.preventDefault();
  try {
    const response = await ask(documentPath(state.name), "PATCH", patchNow(),
      { "Content-Type": "application/json-patch+json", "If-Match": begun.rev });
    const { seq } = await response.json();
    await showDocument(state.name);
    beginEdit();
    told($("edit-result"), true, `Done: change ${seq} is stored.`);
  } catch (error) {
    if (error.problem?.number === 24) await showDocument(state.name);
    toldProblem($("edit-result"), error);
  }
});


// The schema.

// The text of the schema as it was read, and as it was in the field.
let schema = { text: "", shown: "" };

async function showSchema() {
  try {
    const text = await (await ask(schemaPath(state.name))).text();
    $("schema").value = textOf(parse(text), 2);
    schema = { text, shown: $("schema").value };
  } catch (error) {
    toldProblem($("schema-result"), error);
  }
}

// Saves the schema unless another client has changed it meanwhile. Other changes of the document do no harm.
async function saveSchema(name, text) {
  for (let attempt = 1; ; attempt += 1) {
    const now = await ask(schemaPath(name));
    if (await now.text() !== schema.text) {
      throw new Refused({ title: "Another client has changed the schema meanwhile.",
        detail: "Close and open this part to see it. What you wrote is lost then, so copy it before." });
    }
    try {
      return await ask(schemaPath(name), "PUT", text,
        { "Content-Type": "application/schema+json", "If-Match": now.headers.get("ETag") });
    } catch (error) {
      if (error.problem?.number !== 24 || attempt === ATTEMPTS) throw error;
    }
  }
}

$("schema-panel").addEventListener("toggle", () => {
  $("schema-result").replaceChildren();
  if ($("schema-panel").open && state.name) showSchema();
});

$("schema-form").addEventListener("submit", async (event) => {
  event.preventDefault();
  try {
    const response = await saveSchema(state.name, textOf(typed($("schema").value)));
    const done = await response.json();
    await showSchema();
    toldDone($("schema-result"), `Done: change ${done.seq} is stored.`, done);
    await showDocument(state.name);
  } catch (error) {
    toldProblem($("schema-result"), error);
  }
});


// The changes as they are made, by server-sent events. `EventSource` cannot send the token, so they are read here.

const shortened = (text) => text.length > MOST_LETTERS_OF_CHANGE ? `${text.slice(0, MOST_LETTERS_OF_CHANGE)}…` : text;

// A patch without operations asks for a revision only: a transaction that is made for it begins with one.
const isQuestion = (change) => change.cmd === "patch" && !change.ops.length;

function doneBy(change) {
  if (isQuestion(change)) return change.if_rev === undefined ? "left as it was" : `still at revision ${change.if_rev}`;
  return { create: "created", patch: "changed", schema: "under another schema", delete: "deleted" }[change.cmd];
}

function detailsOf(change) {
  if (change.cmd === "create") return [shortened(textOf(change.doc))];
  if (change.cmd === "schema") return [shortened(textOf(change.schema))];
  const operations = change.ops ?? [];
  const details = operations.slice(0, MOST_OPERATIONS).map(({ op, path, from, value }) =>
    from !== undefined ? `${op} ${from || "the whole"} to ${path || "the whole"}`
      : `${op} ${path || "the whole"} ${value === undefined ? "" : shortened(textOf(value))}`);
  if (operations.length > MOST_OPERATIONS) details.push(`and ${grouped(operations.length - MOST_OPERATIONS)} more`);
  return details;
}

// The list of a transaction's changes, which come one after another: the one that is on top, or a new one.
function listOf({ first, last }) {
  const top = $("feed").firstElementChild;
  if (top?.dataset.first === String(first)) return top.querySelector("ol");
  const list = element("ol", {});
  const item = element("li", { className: "transaction" },
    element("p", {}, "One transaction ", element("span", { className: "number" }, `#${first} to #${last}`)), list);
  item.dataset.first = first;
  $("feed").prepend(item);
  return list;
}

function dropOldChanges() {
  for (const item of [...$("feed").querySelectorAll("li.change")].slice(MOST_CHANGES)) item.remove();
  for (const list of $("feed").querySelectorAll("ol:empty")) list.parentElement.remove();
}

// Whether a change was made before the page was opened.
const isEarlier = (seq) => state.began !== null && Number(seq) <= state.began;

function showChange({ change, seq, first, last }) {
  $("no-changes").hidden = true;
  const seen = new Date(), earlier = isEarlier(seq);
  const item = element("li", { className: isQuestion(change) ? "change quiet" : "change" },
    earlier ? element("span", { className: "earlier", title: "before this page was opened" }, "earlier")
      : element("time", { dateTime: seen.toISOString(), title: "when this page was told" }, seen.toLocaleTimeString("en-GB")),
    element("span", { className: "number" }, `#${seq}`),
    change.cmd === "delete" ? change.name : element("a", { href: `#/${change.name}` }, change.name), ` ${doneBy(change)}`,
    ...detailsOf(change).map((detail) => element("span", { className: "what" }, detail)));
  (first === undefined ? $("feed") : listOf({ first, last })).prepend(item);
  dropOldChanges();
}

let waiting = null;
const changed = new Set();

// Many changes at once are one look at the store.
function lookAgain(name, kind) {
  changed.add(kind === "create" || kind === "delete" ? "names" : `${name} ${kind}`).add(name);
  waiting ??= setTimeout(async () => {
    const some = new Set(changed);
    changed.clear();
    waiting = null;
    try {
      await showStatus();
      if (some.has("names")) await showNames();
      if (state.name && some.has(state.name)) await showDocument(state.name);
      // A schema that another client has changed is shown, unless it is being written here.
      if (state.name && some.has(`${state.name} schema`) && $("schema").value === schema.shown) await showSchema();
    } catch { /* What cannot be read now is read after the next change. */ }
  }, 150);
}

function takeEvent(lines) {
  const fields = lines.map((line) => line.match(/^([^:]*):? ?(.*)$/s)).map(([, field, value]) => [field, value]);
  const data = fields.filter(([field]) => field === "data").map(([, value]) => value).join("\n");
  for (const [field, value] of fields) if (field === "id") state.last = value;
  if (fields.some(([field, value]) => field === "event" && value === "gone")) forgetEarlier();
  else if (data) {
    const record = parse(data);
    showChange(record);
    // What was made before was read since then.
    if (!isEarlier(record.seq)) lookAgain(record.change.name, record.change.cmd);
  }
}

// After changes are gone that were asked for, perhaps as a copy took the store's place: those from now on are shown.
function forgetEarlier() {
  state.last = null;
  state.began = null;
  state.earlier = 0;
}

function live(on, text) {
  $("live").className = `state ${on ? "on" : "off"}`;
  $("live").textContent = text;
}

async function follow() {
  const headers = state.last === null ? {} : { "Last-Event-ID": state.last };
  const response = await ask("/changes", "GET", undefined, headers);
  live(true, "live");
  const reader = response.body.pipeThrough(new TextDecoderStream()).getReader();
  let text = "";
  for (;;) {
    const { value, done } = await reader.read();
    if (done) return;
    const blocks = (text + value).split("\n\n");
    text = blocks.pop();
    for (const block of blocks) takeEvent(block.split("\n"));
  }
}

async function followAlways() {
  for (;;) {
    try {
      await follow();
    } catch (error) {
      if (error.problem?.status === 401) return;
      if (error.problem?.status === 410) forgetEarlier();
    }
    live(false, "not connected, trying again");
    await new Promise((resolve) => { setTimeout(resolve, 1000); });
    const name = state.name ?? nameInHash();
    await Promise.allSettled([showStatus(), showNames(), name ? showDocument(name) : null]);
  }
}

// The document that the address of the page names, such as `#/shelf-1`. Without `/` it may be a part of the page.
function nameInHash() {
  const [, slash, name] = location.hash.match(/^#(\/?)([A-Za-z0-9._-]{1,64})$/) ?? [];
  return name && (slash || (state.names.includes(name) && !$(name))) ? name : null;
}

let following = false;

async function begin() {
  try {
    await showStatus();
    await showNames();
    await showDocument(nameInHash());
  } catch (error) {
    if (error.problem?.status === 401) return;
  }
  if (!following) {
    following = true;
    await followAlways();
    following = false;
  }
}

window.addEventListener("hashchange", () => {
  if (nameInHash()) showDocument(nameInHash());
});

begin();

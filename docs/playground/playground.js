// The page: it parses the request at each change, and shows its error or the view of the tab that is selected.
"use strict";

const EXAMPLES = {
  "a query": `query Orders($shop: ID!, $first: Int = 20) {
  shop(id: $shop) {
    name
    orders(first: $first, filter: {states: [OPEN, LATE], from: "2021-10-01"}) {
      edges { node { ...Order total(currency: EUR) { amount } } }
    }
  }
}

fragment Order on Order {
  id
  number
  ... on ShippedOrder @include(if: true) { parcels { carrier } }
}
`,
  "an error": "query {\n  user(id: 4) {\n    name: )\n  }\n}\n",
  "an unknown fragment": "{\n  me { ...Missing }\n}\n",
  "a block string": 'mutation {\n  note(text: """\n    Two lines,\n      the second one "indented" \\u00e4\n  """) { id }\n}\n',
};

const byId = (id) => document.getElementById(id);
const [source, backdrop, panel, status, excerpt] = ["source", "backdrop", "panel", "status", "excerpt"].map(byId);
const tabs = [...document.querySelectorAll('[role="tab"]')];
let views;
let parser;
let shown = "nodes";
let failure = null;

// The error that this throws, or null.
function errorOf(run) {
  try {
    run();
    return null;
  } catch (error) {
    return error;
  }
}

// Marks a part of the source, in what is behind it.
function mark(start, end, className) {
  const text = source.value;
  if (start === undefined) backdrop.textContent = `${text}\n`;
  else backdrop.replaceChildren(text.slice(0, start), element("mark", className, text.slice(start, end) || " "), `${text.slice(end)}\n`);
  backdrop.scrollTop = source.scrollTop;
}

function markError() {
  if (failure?.start) mark(failure.start.index, failure.end.index, "bad");
  else mark();
}

function marksWhenPointedAt(made, part) {
  made.addEventListener("mouseenter", () => mark(part.start.index, part.end.index));
  made.addEventListener("mouseleave", markError);
  return made;
}

// Says whether the source is a document. A document may have an operation that can't be expanded.
function showStatus(text) {
  let nodes = 0;
  const noDocument = errorOf(() => (nodes = parser.parse(text).length));
  failure = noDocument ?? errorOf(() => parser.parse(text).operations.forEach((operation) => operation.complexity));
  if (noDocument) status.textContent = failure.message;
  else if (failure) status.textContent = `A document with ${nodes} nodes. ${failure.message}`;
  else status.textContent = `A document with ${nodes} nodes`;
  status.className = failure ? "bad" : "";
  source.setAttribute("aria-invalid", String(noDocument !== null));
  excerpt.hidden = !failure?.start;
  excerpt.textContent = failure?.start ? failure.excerpt : "";
  markError();
}

function show() {
  const text = source.value;
  showStatus(text);
  let found;
  const error = errorOf(() => (found = views[shown](text)));
  panel.replaceChildren(...(error ? [element("p", "quiet", `Nothing to show. ${error.message}`)] : found));
}

function select(tab) {
  shown = tab.id.slice("tab-".length);
  for (const other of tabs) {
    other.setAttribute("aria-selected", String(other === tab));
    other.tabIndex = other === tab ? 0 : -1;
  }
  panel.setAttribute("aria-labelledby", tab.id);
  show();
}

// Which tab a key goes to, from the one at an index.
const KEYS = {
  ArrowRight: (index) => (index + 1) % tabs.length,
  ArrowLeft: (index) => (index + tabs.length - 1) % tabs.length,
  Home: () => 0,
  End: () => tabs.length - 1,
};

for (const [index, tab] of tabs.entries()) {
  tab.addEventListener("click", () => select(tab));
  tab.addEventListener("keydown", (event) => {
    const next = tabs[KEYS[event.key]?.(index)];
    if (next === undefined) return;
    event.preventDefault();
    next.focus();
    select(next);
  });
}

for (const [name, text] of Object.entries(EXAMPLES)) {
  const button = element("button", "", name);
  button.type = "button";
  button.addEventListener("click", () => {
    source.value = text;
    show();
  });
  byId("examples").append(button);
}

source.addEventListener("input", show);
source.addEventListener("scroll", () => (backdrop.scrollTop = source.scrollTop));

firthnapkin.then(
  (found) => {
    parser = found;
    views = viewsOf(parser, marksWhenPointedAt);
    byId("version").textContent = `Version ${parser.version}.`;
    source.value = EXAMPLES["a query"];
    select(tabs[0]);
  },
  (error) => {
    status.className = "bad";
    status.textContent = `The parser was not loaded: ${error.message}`;
  },
);

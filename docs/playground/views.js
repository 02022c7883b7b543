// What the page shows of a request in each tab: its nodes, tokens, canonical text and complexity, as elements.
"use strict";

// A page shows no more rows than this well.
const MOST_ROWS = 2000;

const COMPLEXITY = { fields: "Fields", aliases: "Aliases", directives: "Directives", rootFields: "Root fields", depth: "Depth" };

function element(name, className, ...inside) {
  const made = document.createElement(name);
  if (className) made.className = className;
  made.append(...inside);
  return made;
}

// Makes the views of a parser. `marks` makes an element mark a part of the source while it is pointed at.
function viewsOf(parser, marks) {
  function valueOf(node) {
    try {
      return node.kind === "string" || node.kind === "blockString" ? JSON.stringify(node.value) : String(node.value);
    } catch {
      // A number beyond all that JavaScript has.
      return node.text;
    }
  }

  function nodeRow(node) {
    const row = element("span", "", element("span", "kind", node.kind));
    if (node.name !== null) row.append(" ", element("span", "name", node.name));
    const isScalar = ["int", "largeInt", "float", "string", "blockString", "boolean", "null", "type"].includes(node.kind);
    if (isScalar) row.append(" ", element("span", "value", valueOf(node)));
    return marks(row, node);
  }

  function rest(length, what) {
    return length > MOST_ROWS ? [element("p", "quiet", `${length - MOST_ROWS} more ${what} are not shown.`)] : [];
  }

  // A list of the nodes, in which each node's children are a list.
  function nodes(source) {
    const found = parser.parse(source);
    const top = element("ul");
    const around = [{ list: top, end: found.length }];
    for (const node of found) {
      if (node.index >= MOST_ROWS) break;
      while (around[around.length - 1].end <= node.index) around.pop();
      const item = element("li", "", nodeRow(node));
      around[around.length - 1].list.append(item);
      if (node.descendants === 0) continue;
      const list = element("ul");
      item.append(list);
      around.push({ list, end: node.index + 1 + node.descendants });
    }
    return [top, ...rest(found.length, "nodes")];
  }

  // Each cell is a text and the name of its class.
  function table(heads, rows) {
    const head = element("tr", "", ...heads.map(([text, className]) => element("th", className ?? "", text)));
    for (const cell of head.children) cell.scope = "col";
    const body = rows.map(([row, part]) =>
      marks(element("tr", "", ...row.map(([text, className]) => element("td", className ?? "", String(text)))), part),
    );
    return element("table", "", element("thead", "", head), element("tbody", "", ...body));
  }

  function tokens(source) {
    const found = parser.tokens(source);
    const rows = [];
    for (let index = 0; index < Math.min(found.length, MOST_ROWS); index++) {
      const token = found.token(index);
      rows.push([[[`${token.line}:${token.column}`, "number"], [token.kind], [token.text, "text"]], token]);
    }
    return [table([["Position", "number"], ["Kind"], ["Text"]], rows), ...rest(found.length, "tokens")];
  }

  function canonical(source) {
    return [element("pre", "canonical", parser.canonical(source))];
  }

  function complexity(source) {
    const { operations } = parser.parse(source);
    if (operations.length === 0) return [element("p", "quiet", "The document has no operation.")];
    const rows = operations.map((operation) => {
      const numbers = Object.keys(COMPLEXITY).map((name) => [operation.complexity[name], "number"]);
      return [[[`${operation.kind} ${operation.name ?? ""}`.trim()], ...numbers], operation.node];
    });
    const heads = [["Operation"], ...Object.values(COMPLEXITY).map((name) => [name, "number"])];
    return [table(heads, rows), element("p", "quiet", "Each count is taken with every fragment expanded.")];
  }

  return { nodes, tokens, canonical, complexity };
}

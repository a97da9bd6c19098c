// Reads the printed lines of a run, and makes their edits in a real DOM.
"use strict";

const SPACES = new Map([
  ["svg", "http://www.w3.org/2000/svg"], ["math", "http://www.w3.org/1998/Math/MathML"],
]);
// Events that browsers make, of which an element has no property.
const BARE = new Set(["focusin", "focusout", "compositionstart", "compositionupdate",
  "compositionend", "touchstart", "touchmove", "touchend", "touchcancel", "DOMContentLoaded"]);

// Whether browsers make events of this name.
function isMade(event) {
  return BARE.has(event) || `on${event}` in HTMLElement.prototype || `on${event}` in window;
}

// What is to be told of a listener's name whose event no browser makes, or nothing.
function noteOnListener(name) {
  const event = name.slice(2);
  if (isMade(event)) return undefined;
  const meant = [name, name.toLowerCase(), event.toLowerCase()].find(isMade);
  const told = event ? `hears the event “${event}”, which no browser makes` : "hears no event";
  const way = event && "; it may be sent as an input";
  return `The listener “${name}” ${told}${meant ? `: “${meant}” is heard by “on${meant}”` : way}.`;
}

// A line of an edit, read from its start to its end.
class Reader {
  constructor(line) {
    this.line = line;
    this.at = 0;
  }

  // The part that matches here, which is stepped over.
  take(pattern) {
    const sticky = new RegExp(pattern.source, "uy");
    sticky.lastIndex = this.at;
    const found = sticky.exec(this.line);
    if (!found) throw new Error(`not an edit at ${this.at}: ${this.line}`);
    this.at = sticky.lastIndex;
    return found[1] ?? found[0];
  }

  sees(text) {
    return this.line.startsWith(text, this.at);
  }

  number() {
    return Number(this.take(/#(\d+)/));
  }

  quoted() {
    return JSON.parse(this.take(/"(?:[^"\\]|\\.)*"/));
  }

  // The value of an attribute, or none.
  value() {
    if (this.sees("=")) return this.take(/=/) && this.quoted();
    return this.take(/ none/) && null;
  }

  // A name, with its namespace before it where it has one.
  name() {
    const [space, name] = this.take(/[A-Za-z0-9_:-]+/).split(":");
    return name === undefined ? { space: null, name: space } : { space, name };
  }
}

// Whether an element is a box that is ticked, or one of several of which one is.
function isBox(element) {
  return element.localName === "input" && ["checkbox", "radio"].includes(element.type);
}

// Puts a text in a field, and leaves the place where someone types in it.
function putText(field, text) {
  if (field.value === text) return;
  const isTyped = field.getRootNode().activeElement === field && field.selectionStart !== null;
  const at = isTyped ? Math.min(field.selectionStart, text.length) : 0;
  field.value = text;
  if (isTyped) field.setSelectionRange(at, at);
}

// What a run shows: DOM nodes by their numbers, of which 0 is the root container.
class Shown {
  // isFree says of a field that what stands in it is the visitor's own, and is left alone.
  constructor(root, isFree = () => false) {
    this.root = root;
    this.isFree = isFree;
    this.nodes = new Map([[0, root]]);
    this.numbers = new Map([[root, 0]]);
    this.listeners = new Map();
    // Fields of which the document gave the text, and what this browser did otherwise.
    this.fields = new Set();
    this.notes = new Set();
    root.replaceChildren();
  }

  node(number) {
    const node = this.nodes.get(number);
    if (!node) throw new Error(`there is no node ${number}`);
    return node;
  }

  // Whether an element has a listener for an event of this name.
  hears(element, event) {
    return [...(this.listeners.get(element) ?? [])].some((name) => name.slice(2) === event);
  }

  // The texts that are shown, in order, as the stored lines have them.
  texts() {
    const walker = document.createTreeWalker(this.root, NodeFilter.SHOW_TEXT);
    const texts = [];
    while (walker.nextNode()) texts.push(" " + JSON.stringify(walker.currentNode.data));
    return texts.join("");
  }

  // The fields and boxes that are shown: the number of each, and what it holds.
  held() {
    const all = [...this.root.querySelectorAll("input, select, textarea")];
    const told = (it) => (isBox(it) ? it.checked : this.fields.has(it) ? it.value : null);
    return all.map((it) => [this.numbers.get(it), told(it)]).filter(([, value]) => value !== null);
  }

  // Puts fields and boxes back to what the document says of them.
  putBack() {
    for (const field of this.root.querySelectorAll("input, select, textarea")) {
      if (this.isFree(field)) continue;
      if (isBox(field)) field.checked = field.hasAttribute("checked");
      else if (field.hasAttribute("value")) putText(field, field.getAttribute("value"));
      else if (this.fields.has(field)) putText(field, "");
    }
  }

  note(text) {
    if (text) this.notes.add(text);
  }

  // The nodes to the end of what stands here, each after a space.
  built(reader) {
    const nodes = [];
    while (reader.sees(" ")) {
      reader.take(/ /);
      nodes.push(this.builtNode(reader));
    }
    return nodes;
  }

  builtNode(reader) {
    if (reader.sees("(")) return this.builtElement(reader);
    const isText = reader.sees('"');
    const text = isText ? reader.quoted() : reader.take(/_/);
    const node = isText ? document.createTextNode(text) : document.createComment("placeholder");
    return this.enter(reader.number(), node);
  }

  builtElement(reader) {
    reader.take(/\(/);
    const { space, name } = reader.name();
    const element = this.made(SPACES.get(space), name);
    this.enter(reader.number(), element);
    while (reader.sees(" ")) {
      reader.take(/ /);
      if (reader.sees("@")) {
        this.listen(element, reader.take(/@([A-Za-z0-9_-]+)/));
      } else if (["(", '"', "_#"].some((start) => reader.sees(start))) {
        element.append(this.builtNode(reader));
      } else {
        this.setAttribute(element, reader.name(), reader.value());
      }
    }
    reader.take(/\)/);
    return element;
  }

  // An element of this name. Where the browser refuses the name another one stands for it.
  made(uri, name) {
    try {
      return uri ? document.createElementNS(uri, name) : document.createElement(name);
    } catch {
      this.note(`This browser refuses elements of the name “${name}”: “x-refused” stands for it.`);
      return document.createElement("x-refused");
    }
  }

  enter(number, node) {
    if (this.nodes.has(number)) throw new Error(`the number ${number} stands twice`);
    this.nodes.set(number, node);
    this.numbers.set(node, number);
    return node;
  }

  // Takes a node and all below it out of the numbers.
  leave(gone) {
    for (const [number, node] of this.nodes) {
      if (!gone.contains(node)) continue;
      this.nodes.delete(number);
      this.numbers.delete(node);
      this.listeners.delete(node);
      this.fields.delete(node);
    }
  }

  // Makes the edit of a line, and answers what it touched: nodes that are new, that changed, or
  // that lost a child.
  apply(line) {
    const reader = new Reader(line);
    const word = reader.take(/[a-z]+/);
    reader.take(/ /);
    const node = this.node(reader.number());
    const parent = node.parentNode;
    switch (word) {
      case "append":
      case "after": {
        const nodes = this.built(reader);
        node[word](...nodes);
        return { nodes, how: "new" };
      }
      case "replace": {
        const nodes = this.built(reader);
        this.leave(node);
        node.replaceWith(...nodes);
        const isSeen = nodes.some((it) => it.nodeType !== Node.COMMENT_NODE);
        return isSeen ? { nodes, how: "new" } : { nodes: [parent], how: "less" };
      }
      case "remove":
        this.leave(node);
        node.remove();
        return { nodes: [parent], how: "less" };
    }
    reader.take(/ /);
    this.change(node, word, reader);
    return { nodes: [node], how: "changed" };
  }

  change(node, word, reader) {
    switch (word) {
      case "text": node.data = reader.quoted(); break;
      case "listen": this.listen(node, reader.take(/.+/)); break;
      case "unlisten": this.listeners.get(node).delete(reader.take(/.+/)); break;
      case "attr": this.setAttribute(node, reader.name(), reader.value()); break;
      default: throw new Error(`not an edit: ${reader.line}`);
    }
  }

  listen(element, name) {
    if (!this.listeners.has(element)) this.listeners.set(element, new Set());
    this.listeners.get(element).add(name);
    this.note(noteOnListener(name));
  }

  setAttribute(element, { space, name }, value) {
    if (space === "style") return element.style?.setProperty(name, value ?? "");
    const whole = space === null ? name : `${space}:${name}`;
    try {
      if (value === null) element.removeAttribute(whole);
      else element.setAttribute(whole, value);
    } catch {
      return this.note(`This browser refuses attributes of the name “${whole}”: it is left out.`);
    }
    if (whole === "value" && "value" in element && !isBox(element)) this.fields.add(element);
  }
}

// A place for the document of an application that the style of the page does not reach.
function stage(host, style) {
  const shadow = host.attachShadow({ mode: "open" });
  const sheet = Object.assign(document.createElement("style"), { textContent: style });
  sheet.id = "style";
  const root = Object.assign(document.createElement("div"), { id: "document" });
  shadow.append(sheet, root);
  return root;
}

// Lays a mark over each node that some edits touched; the document itself stays as it is.
class Marks {
  constructor(layer) {
    this.layer = layer;
    this.touched = [];
    new ResizeObserver(() => this.draw()).observe(layer);
  }

  show(touched) {
    this.touched = touched.flatMap(({ nodes, how }) => nodes.map((node) => ({ node, how })));
    this.draw();
  }

  draw() {
    this.layer.replaceChildren();
    const origin = this.layer.getBoundingClientRect();
    const seen = new Set();
    // What came last is drawn, where a node was touched twice.
    for (const { node, how } of [...this.touched].reverse()) {
      if (!node.isConnected || seen.has(node)) continue;
      seen.add(node);
      const range = document.createRange();
      range.selectNode(node);
      const isElement = node.nodeType === Node.ELEMENT_NODE;
      const box = (isElement ? node : range).getBoundingClientRect();
      if (box.width === 0 && box.height === 0) continue;
      const mark = Object.assign(document.createElement("i"), { className: how });
      const { left, top } = { left: box.left - origin.left, top: box.top - origin.top };
      const sizes = { left, top, width: box.width, height: box.height };
      for (const [name, size] of Object.entries(sizes)) mark.style[name] = `${size}px`;
      this.layer.append(mark);
    }
  }
}

// The edits of each report, with the report's line and how the run ended, if that was a fault.
function steps(lines) {
  const reports = lines.filter((line) => line.startsWith("report "));
  const edits = lines.filter((line) => !/^(report|fault) /.test(line));
  const fault = lines.find((line) => line.startsWith("fault "));
  const all = reports.map((report) => ({
    report,
    edits: edits.splice(0, Number(/ edits (\d+) /.exec(report)[1])),
  }));
  return fault ? [...all, { report: fault, edits, isFault: true }] : all;
}

// The value of a text of JSON, with whole numbers as they are written.
function exact(text) {
  const isWhole = (it) => /^-?\d+$/.test(it?.source);
  return JSON.parse(text, (key, value, it) => (isWhole(it) ? BigInt(it.source) : value));
}

// An input, which is a text, in words.
function said(text) {
  if (text === undefined) return "the build";
  const input = exact(text);
  const told = (it) => (typeof it === "bigint" ? String(it) : JSON.stringify(it));
  const value = (it) => (it === undefined ? "" : ` ${told(it)}`);
  switch (Object.keys(input)[0]) {
    case "event": return `${input.event}${value(input.payload)} at #${input.element}`;
    case "wake": return `task ${input.wake} is woken`;
    case "write": return `cell ${input.write} becomes${value(input.be)}`;
    case "mark": return `scope ${input.mark} is marked`;
    default: return text;
  }
}

// A step as a row of a list: its input, its report and its edits.
function rowOf(input, step) {
  const row = document.createElement("li");
  const add = (tag, className, textContent) =>
    row.append(Object.assign(document.createElement(tag), { className, textContent }));
  add("strong", "input", said(input));
  for (const edit of step.edits) add("code", `edit ${edit.split(" ")[0]}`, edit);
  if (step.edits.length === 0 && !step.isFault) add("em", "none", "no edit");
  add("small", step.isFault ? "fault" : "report", step.report);
  return row;
}

// Lists what this browser did otherwise than the document says.
function showNotes(list, notes) {
  const row = (textContent) => Object.assign(document.createElement("li"), { textContent });
  list.replaceChildren(...[...notes].map(row));
}

// A document in memory for node: as little of the DOM as React, Preact, Vue and tools/pages ask
// for. It shows nothing and lays nothing out, so what a run takes is what the library takes.
"use strict";

class Node {
  constructor(type, name) {
    this.nodeType = type;
    this.nodeName = name;
    this.parentNode = null;
    this.childNodes = [];
    this.place = 0;
    this.ownerDocument = globalThis.document;
    this.heard = new Map();
  }

  // Where this stands among its siblings: where it stood last, or as it is found.
  at() {
    const all = this.parentNode.childNodes;
    if (all[this.place] !== this) this.place = all.indexOf(this);
    return this.place;
  }

  get firstChild() { return this.childNodes[0] ?? null; }
  get lastChild() { return this.childNodes[this.childNodes.length - 1] ?? null; }
  get nextSibling() { return this.parentNode?.childNodes[this.at() + 1] ?? null; }
  get previousSibling() { return this.parentNode?.childNodes[this.at() - 1] ?? null; }
  get isConnected() { return true; }

  insertBefore(node, before) {
    node.remove();
    node.parentNode = this;
    if (before === null || before === undefined) {
      node.place = this.childNodes.length;
      this.childNodes.push(node);
    } else {
      node.place = before.at();
      this.childNodes.splice(node.place, 0, node);
    }
    return node;
  }

  appendChild(node) { return this.insertBefore(node, null); }

  removeChild(node) {
    node.remove();
    return node;
  }

  replaceChild(node, old) {
    this.insertBefore(node, old);
    return this.removeChild(old);
  }

  remove() {
    if (this.parentNode === null) return;
    if (this.parentNode.lastChild === this) this.parentNode.childNodes.pop();
    else this.parentNode.childNodes.splice(this.at(), 1);
    this.parentNode = null;
  }

  append(...nodes) { nodes.forEach((node) => this.appendChild(node)); }
  after(...nodes) {
    const next = this.nextSibling;
    nodes.forEach((node) => this.parentNode.insertBefore(node, next));
  }
  replaceWith(...nodes) {
    this.after(...nodes);
    this.remove();
  }
  replaceChildren() {
    while (this.lastChild) this.lastChild.remove();
  }

  contains(node) {
    while (node !== null && node !== this) node = node.parentNode;
    return node === this;
  }

  get textContent() { return this.childNodes.map((it) => it.textContent).join(""); }
  set textContent(text) {
    this.replaceChildren();
    if (text !== "") this.appendChild(document.createTextNode(text));
  }

  addEventListener(name, listener) {
    if (!this.heard.has(name)) this.heard.set(name, new Set());
    this.heard.get(name).add(listener);
  }
  removeEventListener(name, listener) { this.heard.get(name)?.delete(listener); }

  // Calls who listens here and above, from here up.
  dispatchEvent(event) {
    event.target = this;
    for (let node = this; node !== null; node = node.parentNode) {
      event.currentTarget = node;
      for (const listener of node.heard.get(event.type) ?? []) listener.call(node, event);
    }
  }
}

Node.COMMENT_NODE = 8;

class Data extends Node {
  constructor(type, name, data) {
    super(type, name);
    this.data = `${data}`;
  }

  get nodeValue() { return this.data; }
  set nodeValue(text) { this.data = `${text}`; }
  get textContent() { return this.nodeType === 3 ? this.data : ""; }
  set textContent(text) { this.data = `${text}`; }
}

class Element extends Node {
  constructor(name) {
    super(1, name.toUpperCase());
    this.tagName = this.nodeName;
    this.localName = name;
    this.namespaceURI = "http://www.w3.org/1999/xhtml";
    this.attributes = [];
    this.style = {};
  }

  setAttribute(name, value) { this[`of ${name}`] = `${value}`; }
  removeAttribute(name) { delete this[`of ${name}`]; }
  getAttribute(name) { return this[`of ${name}`] ?? null; }
  hasAttribute(name) { return `of ${name}` in this; }
}

class Document extends Node {
  createElement(name) { return new Element(name); }
  createElementNS(_, name) { return new Element(name); }
  createTextNode(text) { return new Data(3, "#text", text); }
  createEvent() { return { timeStamp: 0 }; }
  createComment(text) { return new Data(8, "#comment", text); }
}

// The tree below a node in a line: elements in parentheses, texts in quotes, comments left out.
// Texts that stand side by side are one: a library may write them in pieces.
function shown(node) {
  let line = "", text = "";
  const end = () => {
    if (text !== "") line += ` ${JSON.stringify(text)}`;
    text = "";
  };
  for (const child of node.childNodes) {
    if (child.nodeType === 3) text += child.data;
    else if (child.nodeType === 1) {
      end();
      line += ` (${child.localName}${shown(child)})`;
    }
  }
  end();
  return line;
}

function click(element) {
  const nothing = () => {};
  const event = { type: "click", bubbles: true, timeStamp: Infinity, button: 0, detail: 1 };
  element.dispatchEvent({ ...event, preventDefault: nothing, stopPropagation: nothing });
}

// What loads in all libraries ask for: the buttons that an event's element is, and texts.
const buttonOfList = (top) => (element) => top().childNodes[element === 1 ? 0 : 1];
const buttonOfField = (top) => (element) =>
  top().firstChild.childNodes[(element - 3) / 10].firstChild;
const begun = (place) =>
  `Paragraph ${place} begins with words that stay, as most words of a page do, `;
const apart = "some of them set apart";
const hundreds = (nodes) =>
  Array.from({ length: Math.ceil(nodes.length / 100) }, (_, it) =>
    nodes.slice(100 * it, 100 * it + 100));

globalThis.window = globalThis;
globalThis.navigator ??= { userAgent: "" };
globalThis.Node = Node;
globalThis.document = new Document(9, "#document");
globalThis.HTMLIFrameElement = class {};
// Of events there are clicks alone.
globalThis.HTMLElement = class { onclick() {} };
const html = document.appendChild(document.createElement("html"));
document.documentElement = html;
document.body = document.activeElement = html.appendChild(document.createElement("body"));
document.defaultView = window;
const root = document.body.appendChild(document.createElement("div"));

module.exports = { root, shown, click, buttonOfList, buttonOfField, begun, apart, hundreds };

// Shows an application that one can use: each event is an input, which the program answers.
// Inputs are texts of JSON all the way, so that each number stays as it was written.
"use strict";

// The page asks so often, in milliseconds, whether the source was edited.
const LOOK = 1500;
// A run that lasts longer than this is told of.
const SOON = 200;

// The value that an event has for a listener; undefined is none.
function payloadOf({ type, target, key }) {
  switch (type) {
    case "input":
    case "change": return target.type === "checkbox" ? Number(target.checked) : target.value;
    case "keydown":
    case "keyup":
    case "keypress": return key;
    case "submit": {
      const isField = (it) => it.matches("input, select, textarea");
      return [...target.elements].find(isField)?.value;
    }
  }
  return undefined;
}

// The inputs of this visit, which a reload of the page finds again.
class Visit {
  constructor({ name, visit }) {
    this.key = `${name} ${visit}`;
    this.isKept = true;
    // Where they could not be kept the browser asks before the page goes.
    addEventListener("beforeunload", (event) => this.isKept || event.preventDefault());
  }

  inputs() {
    try {
      return JSON.parse(sessionStorage.getItem(this.key));
    } catch {
      return null;
    }
  }

  keep(inputs) {
    try {
      sessionStorage.setItem(this.key, JSON.stringify(inputs));
      this.isKept = true;
    } catch {
      this.isKept = inputs.length === 0;
    }
  }
}

class Live {
  constructor(run) {
    this.visit = new Visit(run);
    this.root = stage(document.getElementById("stage"), run.style);
    this.marks = new Marks(document.getElementById("marks"));
    this.list = document.getElementById("steps");
    [this.inputs, this.queue, this.work, this.waiting] = [[], [], Promise.resolve(), 0];
    [this.heard, this.own, this.composed] = [new Set(), new Set(), null];
    this.staying();
    this.controls();
    this.restart(this.visit.inputs() ?? run.inputs);
    setInterval(() => this.look(), LOOK);
  }

  // The page is to stay: no link is followed and no form is sent. What is typed in a field and not
  // heard by the application is the visitor's own.
  staying() {
    const on = (type, call) => this.root.addEventListener(type, call, { capture: true });
    on("submit", (event) => event.preventDefault());
    on("click", (event) => event.target.closest("a, area") && event.preventDefault());
    on("input", ({ target }) => {
      const events = isBox(target) ? ["click", "input", "change"] : ["input"];
      if (!events.some((event) => this.isHeard(target, event, true))) this.own.add(target);
    });
    on("compositionstart", ({ target }) => (this.composed = target));
    on("compositionend", () => (this.composed = null));
  }

  controls() {
    const on = (id, type, call) => document.getElementById(id).addEventListener(type, call);
    on("again", "click", () => this.restart([]));
    on("undo", "click", () => this.restart(this.inputs.slice(0, -1)));
    on("dismiss", "click", () => this.complain(""));
    on("save", "click", () => this.after(() => this.save()));
    on("other", "submit", (event) => {
      event.preventDefault();
      this.sendText(document.getElementById("text").value);
    });
    const failed = ({ message, reason }) => this.complain(reason?.message ?? message);
    for (const type of ["error", "unhandledrejection"]) addEventListener(type, failed);
  }

  // Does a job after those that came before it. One that fails is told, and the next is done.
  after(job) {
    this.busy(1);
    const failed = (error) => {
      this.isBroken = true;
      this.complain(`The page could not show that (${error.message}): start again.`);
    };
    this.work = this.work.then(job).catch(failed).finally(() => this.busy(-1));
  }

  // Tells that the program runs, once it has run for a while.
  busy(change) {
    this.waiting += change;
    const place = document.getElementById("busy");
    if (this.waiting === 0) {
      clearTimeout(this.timer);
      [this.timer, place.hidden] = [undefined, true];
    } else if (!this.timer) {
      const begun = Date.now();
      const show = () => {
        place.hidden = false;
        place.textContent = `The program runs: ${Math.round((Date.now() - begun) / 1000)} s`;
        this.timer = setTimeout(show, 1000);
      };
      this.timer = setTimeout(show, SOON);
    }
  }

  // Runs the program on these inputs, and shows the document from nothing.
  restart(inputs) {
    this.queue.length = 0;
    this.after(async () => {
      const answer = await this.run(inputs);
      if (!answer) return;
      this.begin();
      this.take(inputs, answer);
      this.marks.show([]);
    });
  }

  // Empties the document and the list of steps.
  begin() {
    const isQueued = (field) => this.queue.some(({ element }) => element === field);
    const isFree = (it) => this.own.has(it) || this.composed === it || isQueued(it);
    this.own.clear();
    this.shown = new Shown(this.root, isFree);
    this.isBroken = false;
    this.list.replaceChildren();
  }

  // Puts a question to tools/live.
  post(path, question) {
    const headers = { "Content-Type": "application/json" };
    return fetch(path, { method: "POST", headers, body: JSON.stringify(question) });
  }

  // What is answered to a question, or nothing where it is refused.
  async ask(path, inputs) {
    const answer = await this.post(path, inputs);
    if (answer.ok) return answer;
    this.complain(await answer.text());
    return undefined;
  }

  // What the program answers to a further input alone, where it waits behind those so far and the
  // page is as it told; else nothing.
  async further(input) {
    if (!this.name || this.isBroken || !this.shown) return undefined;
    const answer = await this.post("next", [this.name, this.inputs.length, input]);
    const told = answer.ok ? await answer.json() : undefined;
    return told?.tag === this.tag ? told : undefined;
  }

  // What the program answers of these inputs, or nothing where it refuses them. Where all but the
  // last one are answered already, that one is given behind them.
  async run(inputs, last) {
    try {
      const more = last && (await this.further(last));
      const answer = more ?? (await (await this.ask("run", inputs))?.json());
      if (!answer) return undefined;
      this.complain(answer.complaint);
      const isNew = this.tag !== answer.tag;
      [this.tag, this.name] = [answer.tag, answer.name];
      return answer.lines && { ...answer, isNew };
    } catch (error) {
      this.complain(`tools/live does not answer (${error.message}); start it again`);
      return undefined;
    }
  }

  // Makes the edits that are new, and lists the steps that they belong to. Where the source was
  // edited, or an edit failed, all of them are new.
  take(inputs, { lines, from = 0, isNew, style }) {
    if (isNew || this.isBroken || !this.shown) this.begin();
    this.root.getRootNode().getElementById("style").textContent = style;
    const all = steps(lines);
    const count = this.list.children.length;
    const touched = [];
    for (const [k, step] of all.slice(count - from).entries()) {
      for (const edit of step.edits) touched.push(this.shown.apply(edit));
      this.list.append(rowOf(inputs[count + k - 1], step));
    }
    this.inputs = inputs;
    this.fault = all.find((step) => step.isFault)?.report;
    for (const names of this.shown.listeners.values()) names.forEach((name) => this.hear(name));
    this.shown.putBack();
    this.marks.show(touched);
    this.tell();
  }

  // Tells what stands beside the document.
  tell() {
    showNotes(document.getElementById("notes"), this.shown.notes);
    this.list.lastElementChild?.scrollIntoView({ block: "nearest" });
    document.getElementById("undo").disabled = this.inputs.length === 0;
    const count = this.inputs.length === 1 ? "1 input" : `${this.inputs.length} inputs`;
    document.getElementById("place").textContent = count;
    this.visit.keep(this.inputs);
  }

  // Listens at the root to events of a listener's name, which has two letters before the event's.
  hear(name) {
    const event = name.slice(2);
    if (this.heard.has(event)) return;
    this.heard.add(event);
    this.root.addEventListener(event, (it) => this.happen(it), { capture: true });
  }

  // Whether a listener of the application hears an event at an element.
  isHeard(target, type, bubbles) {
    for (let at = target; at && at !== this.root; at = bubbles && at.parentNode) {
      if (this.shown.hears(at, type)) return true;
    }
    return false;
  }

  // Makes an input of an event, where a listener of the application hears it.
  happen(event) {
    const { type, target, bubbles } = event;
    if (!this.isHeard(target, type, bubbles)) return;
    const input = { event: type, element: this.shown.numbers.get(target) };
    const payload = payloadOf(event);
    if (payload !== undefined) input.payload = payload;
    if (!bubbles) input.bubbles = 0;
    // What the application hears of a field it decides.
    if (type === "input" || type === "change") this.own.delete(target);
    this.send(JSON.stringify(input), target);
  }

  // One input after another is run, in the order in which they came.
  send(input, element) {
    this.queue.push({ input, element });
    this.after(async () => {
      const next = this.queue.shift();
      if (!next) return;
      if (this.fault) {
        this.complain(`The run has ended in a fault (${this.fault}): take back, or start again.`);
        return;
      }
      const inputs = [...this.inputs, next.input];
      const answer = await this.run(inputs, next.input);
      if (answer) this.take(inputs, answer);
      else this.shown?.putBack();
    });
  }

  sendText(text) {
    try {
      JSON.parse(text);
      this.send(text.trim());
    } catch (error) {
      this.complain(`That is no JSON: ${error.message}`);
    }
  }

  // Runs the source anew where it was edited.
  async look() {
    if (this.waiting || document.hidden) return;
    const tag = await fetch("tag").then((it) => it.text(), () => this.tag);
    if (!this.waiting && tag !== this.tag) this.restart(this.inputs);
  }

  // Waits until all is shown that was sent.
  async settled() {
    for (let work; work !== this.work; ) await (work = this.work);
  }

  complain(text) {
    document.getElementById("complaint").hidden = !text;
    document.getElementById("said").textContent = text ?? "";
  }

  // Gives the source with the inputs so far as a file.
  async save() {
    const answer = await this.ask("source", this.inputs);
    if (!answer) return;
    const href = URL.createObjectURL(await answer.blob());
    Object.assign(document.createElement("a"), { href, download: RUN.name }).click();
    URL.revokeObjectURL(href);
  }
}

const page = new Live(RUN);

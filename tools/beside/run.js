// Runs a load with a library, or gives the edits that the program printed to the document:
//
//     node run.js react|preact|vue LOAD SIZE [--steps] < SOURCE.json
//     node run.js edits LINES --steps
//
// The inputs are those of the source, made one by one, and after each the document is up to date.
// At the end the document's tree is printed in a line; with --steps also after each input. What the
// processors took from the first view on, node's own threads with it, is told on standard error.
"use strict";
const fs = require("fs");
const path = require("path");
const page = require("./page.js");

const [kind, load, size] = process.argv.slice(2);
const steps = process.argv.includes("--steps") ? [] : null;
const step = (top = page.root) => steps?.push(page.shown(top));

// The tree below the root after the build and after each input, of the lines that a run printed:
// all edits come first, and each report counts its own.
function edited(lines) {
  const file = path.join(__dirname, "..", "pages", "document.js");
  const Shown = new Function(`${fs.readFileSync(file, "utf8")}; return Shown;`)();
  const made = new Shown(page.root);
  let next = 0;
  for (const report of lines.filter((line) => line.startsWith("report "))) {
    const end = next + Number(/ edits (\d+)/.exec(report)[1]);
    while (next < end) made.apply(lines[next++]);
    step();
  }
}

async function run() {
  const source = JSON.parse(fs.readFileSync(0, "utf8"));
  const loads = require(`./${kind}.js`);
  const before = process.cpuUsage();
  const made = loads[load](Number(size), page.root);
  const top = made.top ?? (() => page.root);
  step(top());
  for (const input of source.inputs ?? []) {
    if (input.event) page.click(made.button(input.element));
    else if (input.wake) made.wake(input.wake - 1);
    else made.write(input.write - 1, input.be);
    await made.settled();
    step(top());
  }
  const took = process.cpuUsage(before);
  console.error(`milliseconds ${(took.user + took.system) / 1000}`);
}

async function main() {
  if (kind === "edits") edited(fs.readFileSync(load, "utf8").split("\n").slice(0, -1));
  else await run();
  console.log((steps ?? [page.shown(page.root)]).join("\n"));
}

main();

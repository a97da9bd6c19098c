#!/usr/bin/env node
// Drives an application: client.mjs SOURCE.json, then inputs on standard input, one a line.
// It prints what the program answers: of each input its edits and its report, or `refused`.
import { spawn } from "node:child_process";
import { readFileSync } from "node:fs";
import { createInterface } from "node:readline";
import { fileURLToPath } from "node:url";

const show = fileURLToPath(new URL("../../show", import.meta.url));
const app = spawn(show, ["--stream"], { stdio: ["pipe", "pipe", "inherit"] });
app.stdin.on("error", () => {});
const lines = createInterface({ input: app.stdout })[Symbol.asyncIterator]();

// Writes a line, and prints those that answer it. Whether the program goes on.
async function ask(line, answers = 1) {
  app.stdin.write(line + "\n");
  for (let next; !(next = await lines.next()).done; ) {
    console.log(next.value);
    if (next.value.startsWith("fault ")) return false;
    if (/^(report |refused)/.test(next.value) && --answers === 0) return true;
  }
  return false;
}

const source = readFileSync(process.argv[2], "utf8").replaceAll("\n", " ");
// The build has an answer, and so has each input that stands in the source.
let goesOn = await ask(source, 1 + (JSON.parse(source).inputs ?? []).length);
for await (const line of createInterface({ input: process.stdin })) goesOn &&= await ask(line);
app.stdin.end();
app.on("close", (status) => (process.exitCode = status));

// Shows a recorded run step by step.
"use strict";

class Recording {
  constructor({ inputs, lines, style }) {
    this.steps = steps(lines);
    this.root = stage(document.getElementById("stage"), style);
    this.marks = new Marks(document.getElementById("marks"));
    this.at = -1;
    const list = document.getElementById("steps");
    this.rows = this.steps.map((step, place) => {
      const row = rowOf(inputs[place - 1], step);
      row.addEventListener("click", () => this.go(place));
      list.append(row);
      return row;
    });
    this.button("back", () => this.go(this.at - 1));
    this.button("next", () => this.go(this.at + 1));
    this.button("play", () => this.play());
    document.addEventListener("keydown", ({ key }) => {
      if (key === "ArrowLeft") this.go(this.at - 1);
      if (key === "ArrowRight") this.go(this.at + 1);
    });
    this.go(0);
  }

  button(id, call) {
    document.getElementById(id).addEventListener("click", call);
  }

  // Shows the document after the step at this place; a step back begins anew.
  go(place) {
    if (place < 0 || place >= this.steps.length) return this.stop();
    if (place <= this.at || this.at < 0) [this.shown, this.at] = [new Shown(this.root), -1];
    let touched = [];
    while (this.at < place) {
      touched = this.steps[++this.at].edits.map((edit) => this.shown.apply(edit));
    }
    this.shown.putBack();
    showNotes(document.getElementById("notes"), this.shown.notes);
    this.marks.show(place === 0 ? [] : touched);
    this.rows.forEach((row, k) => row.classList.toggle("now", k === place));
    this.rows[place].scrollIntoView({ block: "nearest" });
    document.getElementById("place").textContent = `step ${place} of ${this.steps.length - 1}`;
  }

  // Goes on by itself, from the start where it stands at the end.
  play() {
    if (this.playing) return this.stop();
    if (this.at === this.steps.length - 1) this.go(0);
    this.playing = setInterval(() => this.go(this.at + 1), 1200);
    document.getElementById("play").textContent = "Stop";
  }

  stop() {
    clearInterval(this.playing);
    this.playing = undefined;
    document.getElementById("play").textContent = "Play";
  }
}

const page = new Recording(RUN);

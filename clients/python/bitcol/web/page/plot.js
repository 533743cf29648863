// The plot of an answer: which columns are drawn, how, and of which rows.

import { draw, range } from "./chart.js";
import { counted, find, make } from "./elements.js";
import { readColumns } from "./rows.js";

const BARS = 400;
const MOST_ROWS = 1_000_000;
const MOST_SERIES = 6;
const BY_ROW = "row";

/** The plot. */
export class Plot {
  constructor() {
    this.form = find("plot");
    this.button = find("show-plot");
    this.caption = find("plot-caption");
    this.canvas = find("canvas");
    this.button.addEventListener("click", () => this.#toggle());
    this.form.addEventListener("change", () => this.#update());
    this.form.addEventListener("submit", (event) => event.preventDefault());
    addEventListener("resize", () => this.#redraw());
    matchMedia("(prefers-color-scheme: dark)").addEventListener("change", () => this.#redraw());
  }

  /** Takes another answer. It is drawn if the plot is open. */
  show(outcome) {
    const before = this.outcome;
    this.reading?.abort();
    this.outcome = outcome;
    this.drawn = null;
    const { headings, rows } = outcome;
    // An answer like the last one is drawn with the same settings.
    if (before && rows > BARS === before.rows > BARS && String(headings) === String(before.headings)) {
      this.#update();
      return;
    }
    const names = headings[0] === "TABLE" ? headings.slice(1) : headings;
    const skipped = headings.length - names.length;
    const option = (name, value) => make("option", { value }, name);
    const options = names.map((name, place) => option(name, place + skipped));
    find("across").replaceChildren(option("row number", BY_ROW), ...options);
    find("across").value = names.length > 1 && !skipped ? "0" : BY_ROW;
    find("chart").value = rows <= BARS ? "bars" : "lines";
    const first = names.length > 1 && !skipped ? 1 : 0;
    find("plot-columns").replaceChildren(...names.map((name, place) => {
      const box = make("input", { type: "checkbox", value: place + skipped, checked: place === first });
      return make("label", {}, box, ` ${name}`);
    }));
    this.#update();
  }

  #toggle() {
    this.form.hidden = !this.form.hidden;
    this.button.setAttribute("aria-expanded", String(!this.form.hidden));
    this.#update();
  }

  /** Reads the chosen columns, and draws them. */
  async #update() {
    this.reading?.abort();
    if (this.form.hidden || !this.outcome) return;
    const chosen = [...this.form.querySelectorAll("input:checked")].map((box) => Number(box.value));
    const columns = chosen.slice(0, MOST_SERIES);
    const across = find("across").value;
    const form = find("chart").value;
    const rows = Math.min(this.outcome.rows, form === "bars" ? BARS : MOST_ROWS);
    this.drawn = null;
    if (!columns.length || !rows) {
      this.#clear(rows ? "Choose a column." : "The answer has no rows.");
      return;
    }
    const wanted = across === BY_ROW ? columns : [Number(across), ...columns];
    const reading = new AbortController();
    this.reading = reading;
    try {
      const tell = (read) => {
        this.caption.textContent = `reading: ${counted(read, "row")} of ${counted(rows, "row")}`;
      };
      const arrays = await readColumns(this.outcome.answer, wanted, rows, tell, reading.signal);
      if (reading.signal.aborted) return;
      const numbers = across === BY_ROW ? arrays : arrays.slice(1);
      const series = columns.map((column, place) => ({ name: this.outcome.headings[column], numbers: numbers[place] }));
      const acrossName = across === BY_ROW ? "row number" : this.outcome.headings[Number(across)];
      this.drawn = { form, series, acrossName, across: across === BY_ROW ? null : arrays[0] };
      this.#redraw();
      this.caption.replaceChildren(...this.#caption(rows, chosen.length));
    } catch (fault) {
      if (fault.name !== "AbortError") this.#clear(fault.message);
    }
  }

  #redraw() {
    if (!this.drawn || this.form.hidden) return;
    if (!draw(this.canvas, { ...this.drawn, colours: colours() })) this.#clear("There is no value but NULL.");
  }

  #clear(text) {
    this.drawn = null;
    this.canvas.getContext("2d").clearRect(0, 0, this.canvas.width, this.canvas.height);
    this.caption.textContent = text;
  }

  /** The caption: the names with their colours, and the rows that aren't drawn. */
  *#caption(rows, chosen) {
    if (!this.drawn) {
      yield "There is no value but NULL.";
      return;
    }
    for (const [place, { name, numbers }] of this.drawn.series.entries()) {
      const mark = make("span", { className: "mark" });
      mark.style.background = `var(--series-${place + 1})`;
      const found = range([numbers]);
      const extent = found ? `${found.least} to ${found.greatest}` : "NULL alone";
      yield make("span", { className: "series" }, mark, ` ${name}: ${extent}`);
    }
    yield `${this.drawn.form} by ${this.drawn.acrossName}, ${counted(rows, "row")}`;
    const rest = this.outcome.rows - rows;
    if (rest) yield `; the other ${counted(rest, "row")} of the answer ${rest === 1 ? "isn't" : "aren't"} drawn`;
    if (chosen > MOST_SERIES) yield `; at most ${MOST_SERIES} columns are drawn`;
  }
}

function colours() {
  const style = getComputedStyle(document.documentElement);
  const value = (name) => style.getPropertyValue(name).trim();
  return {
    series: Array.from({ length: MOST_SERIES }, (_, place) => value(`--series-${place + 1}`)),
    text: value("--text"),
    line: value("--line"),
  };
}

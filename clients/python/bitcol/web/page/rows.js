// The rows of an answer that the server keeps, loaded some at a time, when they are shown.

import { getText } from "./server.js";

const PAGE_ROWS = 256;
const MOST_PAGES = 64;
const READ_ROWS = 65_536;

/** The cells of lines, as the program wrote them: they aren't converted to numbers, so none can lose a digit. */
export function cellsOf(lines) {
  return lines.split("\n").slice(0, -1).map((line) => line.split(","));
}

/** The rows of the answer with this number. `changed` is called when requested rows have arrived. */
export class Rows {
  constructor(answer, count, changed) {
    Object.assign(this, { answer, count, changed });
    this.fault = "";
    this.pages = new Map();
    this.awaited = new Map();
    this.missing = new Set();
  }

  /** The cells of a row, or undefined while they aren't loaded. */
  row(place) {
    return this.pages.get(Math.floor(place / PAGE_ROWS))?.[place % PAGE_ROWS];
  }

  /** Requests these rows, and stops waiting for others. */
  want(first, last) {
    const from = Math.floor(first / PAGE_ROWS);
    const to = Math.floor(Math.max(last - 1, first) / PAGE_ROWS);
    if (first >= last) return;
    for (const [page, controller] of this.awaited) {
      if (page < from || page > to) {
        controller.abort();
        this.awaited.delete(page);
      }
    }
    for (let page = from; page <= to; page++) this.#wantPage(page);
  }

  /** Stops waiting. */
  close() {
    for (const controller of this.awaited.values()) controller.abort();
  }

  async #wantPage(page) {
    if (this.pages.has(page)) {
      // The pages that were used last are kept.
      const cells = this.pages.get(page);
      this.pages.delete(page);
      this.pages.set(page, cells);
      return;
    }
    // What couldn't be loaded once isn't requested again and again.
    if (this.awaited.has(page) || this.missing.has(page)) return;
    const controller = new AbortController();
    this.awaited.set(page, controller);
    try {
      const words = { answer: this.answer, first: page * PAGE_ROWS, count: PAGE_ROWS };
      this.pages.set(page, cellsOf(await getText("rows", words, controller.signal)));
      this.fault = "";
      while (this.pages.size > MOST_PAGES) this.pages.delete(this.pages.keys().next().value);
    } catch (fault) {
      if (fault.name === "AbortError") return;
      this.fault = fault.message;
      this.missing.add(page);
    } finally {
      if (this.awaited.get(page) === controller) this.awaited.delete(page);
    }
    this.changed();
  }
}

/** The numbers in these columns of an answer's first rows, NaN for NULL: an array for each column. `tell` is called
 * with the number of rows that have arrived, and a signal ends it. */
export async function readColumns(answer, columns, rows, tell, signal) {
  const found = columns.map(() => new Float64Array(rows));
  for (let first = 0; first < rows; first += READ_ROWS) {
    const words = { answer, first, count: Math.min(READ_ROWS, rows - first), columns: columns.join(",") };
    const cells = cellsOf(await getText("rows", words, signal));
    cells.forEach((row, place) => {
      // Number("NULL") is NaN.
      row.forEach((cell, column) => { found[column][first + place] = Number(cell); });
    });
    tell(Math.min(first + READ_ROWS, rows));
  }
  return found;
}

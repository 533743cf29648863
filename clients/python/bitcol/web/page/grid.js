// A grid that shows any part of an answer, however long: it holds only the rows that are visible.

import { find, make } from "./elements.js";
import { Rows } from "./rows.js";

// Browsers limit the height of elements. Above this height a step of the scroll bar is more than a row.
const MOST_PIXELS = 5_000_000;
const WHEEL_LINE = 3;

/** The first visible row for a position of the scroll bar, given the number of rows and of visible rows. */
export function rowAt(top, greatestTop, rows, seen) {
  const last = Math.max(rows - seen, 0);
  return greatestTop > 0 ? Math.round(Math.min(top / greatestTop, 1) * last) : 0;
}

/** The position of the scroll bar if this row is the first visible one. */
export function topOf(row, greatestTop, rows, seen) {
  const last = Math.max(rows - seen, 0);
  return last > 0 ? (Math.min(row, last) / last) * greatestTop : 0;
}

/** The width of a column in characters: that of its heading, and of any integer. */
export function widthOf(heading, isText) {
  return Math.min(Math.max(heading.length, isText ? 24 : 11), 40) + 2;
}

/** The grid. */
export class Grid {
  constructor() {
    this.box = find("grid");
    // The first visible row, and the fraction of a row by which the wheel was turned beyond it.
    this.first = 0;
    this.turned = 0;
    this.current = { row: 0, column: 0 };
    this.box.addEventListener("scroll", () => this.#scrolled());
    this.box.addEventListener("wheel", (event) => this.#wheeled(event), { passive: false });
    this.box.addEventListener("keydown", (event) => this.#pressed(event));
    this.box.addEventListener("mousedown", (event) => this.#pointed(event));
    new ResizeObserver(() => this.rows && this.#place(this.first)).observe(this.box);
  }

  /** Shows an answer from its first row on. */
  show(outcome) {
    this.rows?.close();
    this.headings = outcome.headings;
    this.rows = new Rows(outcome.answer, outcome.rows, () => this.#draw());
    this.current = { row: 0, column: 0 };
    // In a list of tables the first column has their names.
    const isText = (place) => place === 0 && this.headings[0] === "TABLE";
    const widths = this.headings.map((heading, place) => `${widthOf(heading, isText(place))}ch`);
    const count = `${Math.max(String(outcome.rows).length, 3) + 2}ch`;
    this.box.style.setProperty("--columns", [count, ...widths].join(" "));
    this.box.setAttribute("aria-rowcount", outcome.rows + 1);
    this.box.setAttribute("aria-colcount", this.headings.length + 1);
    this.head = make("div", { className: "row head", role: "row", "aria-rowindex": 1 });
    this.head.append(make("div", { role: "columnheader" }, "row"));
    this.headings.forEach((heading, place) => {
      const className = isText(place) ? "text" : "";
      this.head.append(make("div", { role: "columnheader", title: heading, className }, heading));
    });
    this.isText = isText;
    this.body = make("div", { className: "seen", role: "rowgroup" });
    this.space = make("div", { className: "space", role: "presentation" }, this.head, this.body);
    this.box.replaceChildren(this.space);
    this.box.scrollTo(0, 0);
    this.#place(0);
  }

  /** Makes a row, counted from 0, the current one, and shows it. */
  goTo(row) {
    this.#moveTo(row, this.current.column);
  }

  get #rowHeight() {
    return this.head.offsetHeight || 24;
  }

  /** The number of rows that are completely visible. */
  get #seen() {
    return Math.max(Math.floor((this.box.clientHeight - this.#rowHeight) / this.#rowHeight), 1);
  }

  get #greatestTop() {
    return Math.max(this.space.offsetHeight - this.box.clientHeight, 0);
  }

  /** Shows the rows from this one on, and moves the scroll bar there. */
  #place(first) {
    const height = Math.min((this.rows.count + 1) * this.#rowHeight, MOST_PIXELS);
    this.space.style.height = `${Math.max(height, this.#rowHeight)}px`;
    const last = Math.max(this.rows.count - this.#seen, 0);
    this.first = Math.min(Math.max(Math.round(first), 0), last);
    this.placedTop = Math.round(topOf(this.first, this.#greatestTop, this.rows.count, this.#seen));
    if (Math.abs(this.box.scrollTop - this.placedTop) > 1) this.box.scrollTop = this.placedTop;
    this.#draw();
  }

  #scrolled() {
    // Caused by this grid itself, or a horizontal move.
    if (!this.rows || Math.abs(this.box.scrollTop - this.placedTop) <= 1) return;
    this.placedTop = this.box.scrollTop;
    this.first = rowAt(this.box.scrollTop, this.#greatestTop, this.rows.count, this.#seen);
    this.#draw();
  }

  #wheeled(event) {
    if (!this.rows || event.ctrlKey || event.shiftKey || Math.abs(event.deltaX) > Math.abs(event.deltaY)) return;
    const isAtEnd = event.deltaY < 0 ? this.first === 0 : this.first >= this.rows.count - this.#seen;
    if (isAtEnd) {
      // The page scrolls instead.
      this.turned = 0;
      return;
    }
    event.preventDefault();
    const isInPixels = event.deltaMode === WheelEvent.DOM_DELTA_PIXEL;
    this.turned += isInPixels ? event.deltaY / this.#rowHeight : event.deltaY * WHEEL_LINE;
    const rows = Math.trunc(this.turned);
    this.turned -= rows;
    this.#place(this.first + rows);
  }

  #pressed(event) {
    if (!this.rows || event.altKey || event.metaKey) return;
    const { row, column } = this.current;
    const last = this.rows.count - 1;
    const end = this.headings.length - 1;
    if (event.ctrlKey && event.key.toLowerCase() === "c" && String(getSelection()) === "") {
      navigator.clipboard?.writeText(this.rows.row(row)?.[column] ?? "");
      return;
    }
    const places = {
      ArrowDown: [row + 1, column],
      ArrowUp: [row - 1, column],
      ArrowRight: [row, column + 1],
      ArrowLeft: [row, column - 1],
      PageDown: [row + this.#seen, column],
      PageUp: [row - this.#seen, column],
      Home: event.ctrlKey ? [0, 0] : [row, 0],
      End: event.ctrlKey ? [last, end] : [row, end],
    };
    const place = places[event.key];
    if (!place) return;
    event.preventDefault();
    this.#moveTo(...place);
  }

  #pointed(event) {
    const cell = event.target.closest("[role=gridcell]");
    if (cell) this.#moveTo(Number(cell.dataset.row), Number(cell.dataset.column));
  }

  #moveTo(row, column) {
    this.current.row = Math.min(Math.max(row, 0), Math.max(this.rows.count - 1, 0));
    this.current.column = Math.min(Math.max(column, 0), this.headings.length - 1);
    const seen = this.#seen;
    const first = Math.min(Math.max(this.first, this.current.row - seen + 1), this.current.row);
    this.#place(first);
    this.#reveal(find("current-cell"));
  }

  /** Scrolls horizontally as far as needed to show a cell, which the row numbers may cover otherwise. */
  #reveal(cell) {
    if (!cell) return;
    const least = cell.offsetLeft + cell.offsetWidth - this.box.clientWidth;
    const greatest = cell.offsetLeft - this.head.firstChild.offsetWidth;
    this.box.scrollLeft = Math.min(Math.max(this.box.scrollLeft, least), greatest);
  }

  /** Draws the visible rows, and requests those that aren't loaded yet. */
  #draw() {
    const last = Math.min(this.first + this.#seen + 1, this.rows.count);
    this.rows.want(this.first, last);
    const drawn = [];
    for (let row = this.first; row < last; row++) drawn.push(this.#row(row));
    this.body.replaceChildren(...drawn);
    if (this.rows.fault) this.body.prepend(make("p", { className: "error" }, this.rows.fault));
    this.box.setAttribute("aria-busy", String(drawn.some((row) => row.classList.contains("awaited"))));
    if (find("current-cell")) this.box.setAttribute("aria-activedescendant", "current-cell");
    else this.box.removeAttribute("aria-activedescendant");
  }

  #row(place) {
    const cells = this.rows.row(place);
    const row = make("div", { className: cells ? "row" : "row awaited", role: "row", "aria-rowindex": place + 2 });
    row.append(make("div", { role: "rowheader" }, String(place + 1)));
    this.headings.forEach((_, column) => {
      const text = cells?.[column] ?? "…";
      const cell = make("div", { role: "gridcell" }, text);
      if (text === "NULL") cell.classList.add("null");
      if (this.isText(column)) cell.classList.add("text");
      Object.assign(cell.dataset, { row: place, column });
      if (place === this.current.row && column === this.current.column) cell.id = "current-cell";
      row.append(cell);
    });
    return row;
  }
}

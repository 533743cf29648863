// The list of tables: their rows and columns, and, when one is opened, its columns' layouts and kinds.

import { counted, find, make } from "./elements.js";
import { getJson, save } from "./server.js";

/** The list of tables. `insert` puts a word into the editor, `run` executes a statement, and `attempt` performs an
 * action and reports the reason if it fails. */
export class Tables {
  constructor(insert, run, attempt) {
    Object.assign(this, { insert, run, attempt });
    this.list = find("tables");
    this.opened = new Set();
    this.shown = "";
  }

  /** Shows these tables. Those that are open stay open. */
  show(tables) {
    find("no-tables").hidden = tables.length > 0;
    const text = JSON.stringify(tables);
    if (text === this.shown) {
      // The element that has the focus keeps it.
      this.list.querySelectorAll("details[open]").forEach((details) => this.#tellLayouts(details));
      return;
    }
    this.shown = text;
    const focused = document.activeElement?.closest?.("#tables summary")?.dataset.table;
    this.list.replaceChildren(...tables.map((table) => this.#entry(table)));
    if (focused) this.list.querySelector(`summary[data-table="${focused}"]`)?.focus();
  }

  #entry(table) {
    const summary = make("summary", {}, make("b", {}, table.name), " ", counted(table.rows, "row"));
    summary.dataset.table = table.name;
    const details = make("details", { open: this.opened.has(table.name) }, summary);
    details.append(this.#columns(table), this.#tools(table));
    details.dataset.table = table.name;
    details.addEventListener("toggle", () => {
      if (details.open) {
        this.opened.add(table.name);
        this.#tellLayouts(details);
      } else {
        this.opened.delete(table.name);
      }
    });
    return make("li", {}, details);
  }

  #columns(table) {
    const headings = ["Column", "Type", "Layout", "Kind"].map((heading) => make("th", { scope: "col" }, heading));
    const rows = table.columns.map((column) => {
      const properties = { type: "button", className: "word", title: "Put it into the statement" };
      const name = make("button", properties, column.name);
      name.addEventListener("click", () => this.insert(column.name));
      return make("tr", {}, make("td", {}, name), make("td", {}, column.type), make("td"), make("td"));
    });
    return make("table", {}, make("thead", {}, make("tr", {}, ...headings)), make("tbody", {}, ...rows));
  }

  #tools(table) {
    const button = (text, action) => {
      const made = make("button", { type: "button" }, text);
      made.setAttribute("aria-label", `${text}: ${table.name}`);
      made.addEventListener("click", action);
      return made;
    };
    const saving = (form) => () => this.attempt(() => save("table", { table: table.name, form }));
    return make(
      "p",
      { className: "tools" },
      button("Show rows", () => this.run(`SELECT * FROM ${table.name}`)),
      button("Save as CSV", saving("csv")),
      button("Save as a table file", saving("table")),
    );
  }

  /** The store writes a table file for these, so they are requested only when somebody looks. */
  async #tellLayouts(details) {
    await this.attempt(async () => {
      const found = await getJson("layouts", { table: details.dataset.table });
      const rows = details.querySelectorAll("tbody tr");
      found.forEach(({ layout, kind }, place) => {
        if (!rows[place]) return;
        rows[place].children[2].textContent = layout;
        rows[place].children[3].textContent = kind;
      });
    });
  }
}

// The list of replies: each statement with its reply or its error below it, the newest on top.

import { counted, find, make } from "./elements.js";

const MOST = 200;

/** The list of replies. `show` shows an answer with rows. */
export class Replies {
  constructor(show) {
    this.list = find("replies");
    this.show = show;
  }

  /** Adds the outcomes of the statements of a run. */
  addOutcomes(outcomes) {
    this.#add(outcomes.map((outcome) => this.#outcome(outcome)));
  }

  /** Adds a line that doesn't belong to a statement. */
  addMessage(text, isError = false) {
    // A message equal to the newest entry isn't added again.
    if (this.list.firstChild?.textContent === text) return;
    this.#add([make("li", {}, make("p", { className: isError ? "error" : "said" }, text))]);
  }

  #add(entries) {
    this.list.prepend(...entries);
    while (this.list.children.length > MOST) this.list.lastChild.remove();
    this.list.scrollTop = 0;
  }

  #outcome(outcome) {
    const statement = make("pre", { className: "statement" }, outcome.statement);
    if (outcome.error) {
      const place = outcome.line > 1 ? `line ${outcome.line}: ` : "";
      return make("li", {}, statement, make("p", { className: "error" }, place + outcome.error));
    }
    const said = make("p", { className: "said" }, make("span", {}, reply(outcome)));
    said.append(" ", make("span", { className: "time" }, time(outcome.seconds)));
    if (outcome.answer !== null) {
      if (outcome.units !== null) {
        const title = "What the condition reads, as STATS counts it";
        said.append(" ", make("span", { className: "time", title }, counted(outcome.units, "unit")));
      }
      const button = make("button", { type: "button" }, "Show");
      button.setAttribute("aria-label", `Show the answer to ${outcome.statement}`);
      button.addEventListener("click", () => this.show(outcome, true));
      said.append(" ", button);
    }
    return make("li", {}, statement, said);
  }
}

function time(seconds) {
  return seconds < 1 ? `${(1000 * seconds).toFixed(2)} ms` : `${seconds.toFixed(3)} s`;
}

function reply(outcome) {
  if (outcome.rows === null) return outcome.units === null ? "ok" : counted(outcome.units, "unit");
  const rows = counted(outcome.rows, "row");
  return outcome.answer === null ? `ok, ${rows}` : rows;
}

// The editor of statements: what is run, and the completion of words.

import { find, make } from "./elements.js";
import { postJson } from "./server.js";

const QUIET_MILLISECONDS = 150;
const MOST_SHOWN = 500;
// Where the window keeps the text when the page is reloaded.
const KEPT = "script";

/** The text and the caret position after replacing this word before the caret by another. */
export function exchanged(text, place, word, other) {
  const start = place - word.length;
  return { text: text.slice(0, start) + other + text.slice(place), place: start + other.length };
}

/** The editor. `run` is called with a script. */
export class Editor {
  constructor(run) {
    this.area = find("script");
    this.list = find("completions");
    this.run = run;
    this.word = "";
    this.chosen = -1;
    this.area.value = sessionStorage.getItem(KEPT) ?? "";
    this.area.addEventListener("input", (event) => this.#typed(event));
    this.area.addEventListener("keydown", (event) => this.#pressed(event));
    this.area.addEventListener("blur", () => this.#close());
    // A click has to take a word before the editor loses the focus.
    this.list.addEventListener("mousedown", (event) => {
      event.preventDefault();
      const place = [...this.list.children].indexOf(event.target.closest("li"));
      if (place >= 0) this.#take(place);
    });
    find("run").addEventListener("click", () => this.#run());
  }

  /** Inserts a word at the caret. */
  insert(word) {
    this.area.focus();
    this.#write(this.area.selectionStart, this.area.selectionEnd, word);
  }

  /** Whether something is being run. */
  get isBusy() {
    return find("run").disabled;
  }

  set isBusy(isBusy) {
    find("run").disabled = isBusy;
  }

  #run() {
    this.#close();
    const { selectionStart, selectionEnd, value } = this.area;
    this.run(selectionStart < selectionEnd ? value.slice(selectionStart, selectionEnd) : value);
  }

  #typed(event) {
    sessionStorage.setItem(KEPT, this.area.value);
    this.#close();
    if (event.inputType === "insertText" && /\w$/.test(event.data ?? "")) {
      this.timer = setTimeout(() => this.#complete(false), QUIET_MILLISECONDS);
    }
  }

  #pressed(event) {
    const isOpen = !this.list.hidden;
    if ((event.ctrlKey || event.metaKey) && event.key === "Enter") {
      event.preventDefault();
      this.#run();
    } else if (event.ctrlKey && event.key === " ") {
      event.preventDefault();
      this.#complete(true);
    } else if (isOpen && event.key === "Escape") {
      event.preventDefault();
      this.#close();
    } else if (isOpen && (event.key === "ArrowDown" || event.key === "ArrowUp")) {
      event.preventDefault();
      const words = this.list.children.length;
      this.#choose((this.chosen + (event.key === "ArrowDown" ? 1 : words - (this.chosen < 0 ? 0 : 1))) % words);
    } else if (isOpen && event.key === "Tab" && !event.shiftKey) {
      event.preventDefault();
      this.#take(Math.max(this.chosen, 0));
    } else if (isOpen && event.key === "Enter" && this.chosen >= 0) {
      event.preventDefault();
      this.#take(this.chosen);
    } else if (isOpen && ["ArrowLeft", "ArrowRight", "Home", "End"].includes(event.key)) {
      this.#close();
    }
  }

  /** Requests the completions of the word before the caret. If the user asked for them, a single one is taken. */
  async #complete(isAsked) {
    const place = this.area.selectionStart;
    const before = this.area.value.slice(0, place);
    this.asked = before;
    let found;
    try {
      found = await postJson("complete", {}, before);
    } catch {
      // Without completions the user types the whole word.
      return;
    }
    // The question may be out of date by now.
    if (this.asked !== before || this.area.selectionStart !== place) return;
    const words = found.words.filter((word) => word !== found.word);
    if (!words.length || document.activeElement !== this.area) return;
    this.word = found.word;
    const option = (word, number) => make("li", { role: "option", id: `word-${number}` }, word);
    this.list.replaceChildren(...words.slice(0, MOST_SHOWN).map(option));
    this.list.hidden = false;
    this.#putBelow(before);
    if (isAsked && words.length === 1) this.#take(0);
    else this.#choose(isAsked ? 0 : -1);
  }

  #choose(place) {
    this.chosen = place;
    [...this.list.children].forEach((option, number) => option.setAttribute("aria-selected", String(number === place)));
    if (place < 0) {
      this.area.removeAttribute("aria-activedescendant");
      return;
    }
    this.area.setAttribute("aria-activedescendant", `word-${place}`);
    this.list.children[place].scrollIntoView({ block: "nearest" });
  }

  #take(place) {
    const word = this.list.children[place].textContent;
    const end = this.area.selectionStart;
    this.#close();
    this.#write(end - this.word.length, end, word);
  }

  #close() {
    clearTimeout(this.timer);
    this.asked = null;
    this.list.hidden = true;
    this.chosen = -1;
    this.area.removeAttribute("aria-activedescendant");
  }

  /** Replaces a part by a text, in a way that can be undone if the browser supports that. */
  #write(start, end, text) {
    this.area.setSelectionRange(start, end);
    if (!document.execCommand?.("insertText", false, text)) {
      const made = exchanged(this.area.value, end, this.area.value.slice(start, end), text);
      this.area.value = made.text;
      this.area.setSelectionRange(made.place, made.place);
    }
    sessionStorage.setItem(KEPT, this.area.value);
  }

  /** Puts the list below the word that ends with this text. */
  #putBelow(before) {
    const style = getComputedStyle(this.area);
    const lines = before.split("\n");
    const width = characterWidth(style);
    const start = lines.at(-1).length - this.word.length;
    const left = start * width + parseFloat(style.paddingLeft) - this.area.scrollLeft;
    const top = lines.length * parseFloat(style.lineHeight) + parseFloat(style.paddingTop) - this.area.scrollTop;
    this.list.style.left = `${Math.min(Math.max(left, 0), this.area.clientWidth - this.list.offsetWidth)}px`;
    this.list.style.top = `${Math.min(top, this.area.clientHeight) + 4}px`;
  }
}

function characterWidth(style) {
  const context = document.createElement("canvas").getContext("2d");
  context.font = `${style.fontSize} ${style.fontFamily}`;
  return context.measureText("0").width;
}

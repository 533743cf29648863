// The page: an editor, the replies to its statements, the rows of an answer, and the tables.

import { Editor } from "./editor.js";
import { counted, find } from "./elements.js";
import { Files } from "./files.js";
import { Grid } from "./grid.js";
import { Plot } from "./plot.js";
import { Replies } from "./replies.js";
import { getJson, postJson, save } from "./server.js";
import { Tables } from "./tables.js";

const QUIET_MILLISECONDS = 300;

const grid = new Grid();
const plot = new Plot();
const replies = new Replies(show);
const tables = new Tables((word) => editor.insert(word), run, attempt);
const editor = new Editor(run);
new Files(() => limits.fileBytes, (text, isError) => replies.addMessage(text, isError), attempt, refresh);
const limits = { fileBytes: Infinity, textBytes: Infinity };
let known = 0;
let shown = null;
let awaited = 0;

/** Performs an action, and reports the reason if it fails. If it takes long, the page says so. */
async function attempt(action) {
  awaited += 1;
  const timer = setTimeout(() => { find("status").textContent = "waiting for the store .."; }, QUIET_MILLISECONDS);
  try {
    await action();
  } catch (fault) {
    replies.addMessage(fault.message, true);
  } finally {
    clearTimeout(timer);
    awaited -= 1;
    if (!awaited) find("status").textContent = "";
  }
}

/** Executes a script, and shows the last answer with rows. */
async function run(script) {
  if (editor.isBusy) return;
  const bytes = new Blob([script]).size;
  if (bytes > limits.textBytes) {
    replies.addMessage(`what is to be run has ${bytes} bytes, and the page takes ${limits.textBytes}`, true);
    return;
  }
  editor.isBusy = true;
  await attempt(async () => {
    const outcomes = await postJson("run", {}, script);
    if (!outcomes.length) replies.addMessage("there is no statement to run");
    replies.addOutcomes(outcomes);
    const last = outcomes.findLast((outcome) => typeof outcome.answer === "number");
    if (last) show(last);
  });
  editor.isBusy = false;
  await refresh();
}

/** Shows an answer with rows, and moves there if requested. */
function show(outcome, goesThere = false) {
  shown = outcome;
  find("answer").hidden = false;
  find("answer-title").textContent = `Answer to ${outcome.statement.split("\n", 1)[0]}`;
  find("answer-size").textContent = `${counted(outcome.rows, "row")}, ${counted(outcome.headings.length, "column")}`;
  find("go-to").max = outcome.rows;
  find("go-to").value = "";
  grid.show(outcome);
  plot.show(outcome);
  if (goesThere) find("grid").focus();
}

/** Lists the tables as they are now, and the messages to all windows. Another window may have changed the tables. */
async function refresh() {
  await attempt(async () => {
    const state = await getJson("state", { after: known });
    limits.fileBytes = state.fileBytes;
    limits.textBytes = state.textBytes;
    for (const { number, text, isError } of state.messages) {
      if (number > known) replies.addMessage(text, isError);
      known = Math.max(known, number);
    }
    tables.show(state.tables);
  });
}

find("go-to").addEventListener("change", (event) => {
  const row = Number(event.target.value);
  if (shown && row >= 1) {
    grid.goTo(row - 1);
    find("grid").focus();
  }
});
find("save-answer").addEventListener("click", () => attempt(() => save("answer.csv", { answer: shown.answer })));
addEventListener("focus", refresh);
refresh();
find("script").focus();

// Files that become tables: dropped on the page, or chosen.

import { counted, find } from "./elements.js";
import { postJson } from "./server.js";

/** Accepts files. `limit` returns the bytes that a file may have, `tell` reports the outcome, `attempt` performs an
 * action that takes some time, and `done` is called after the last file. */
export class Files {
  constructor(limit, tell, attempt, done) {
    Object.assign(this, { limit, tell, attempt, done });
    this.#listenToDrops();
    find("import-file").addEventListener("change", (event) => {
      this.take([...event.target.files], find("import-name").value.trim() || undefined);
      event.target.value = "";
    });
    find("import").addEventListener("submit", (event) => event.preventDefault());
  }

  /** Makes tables from files, one after the other, the first under this name if one is given. */
  async take(files, table) {
    for (const file of files) {
      await this.attempt(() => this.#takeOne(file, table));
      table = undefined;
    }
    find("import-name").value = "";
    await this.done();
  }

  async #takeOne(file, table) {
    if (file.size > this.limit()) {
      this.tell(`${file.name}: it has ${file.size} bytes, and a file has at most ${this.limit()} here`, true);
      return;
    }
    try {
      // A folder, or a file that is gone, can't be read.
      await file.slice(0, 1).arrayBuffer();
    } catch {
      this.tell(`${file.name}: this is no file that can be read`, true);
      return;
    }
    try {
      const { imported, errors } = await postJson("import", { name: file.name, table }, file);
      for (const made of imported) {
        this.tell(`${made.table}: ${counted(made.rows, "row")} of ${file.name}`);
        for (const note of made.notes) this.tell(note);
      }
      for (const error of errors) this.tell(error, true);
    } catch (fault) {
      this.tell(`${file.name}: ${fault.message}`, true);
    }
  }

  #listenToDrops() {
    const sheet = find("drop");
    const hasFiles = (event) => event.dataTransfer?.types.includes("Files");
    addEventListener("dragover", (event) => {
      if (!hasFiles(event)) return;
      event.preventDefault();
      sheet.hidden = false;
    });
    addEventListener("dragleave", (event) => {
      if (event.relatedTarget === null) sheet.hidden = true;
    });
    addEventListener("drop", (event) => {
      sheet.hidden = true;
      if (!hasFiles(event)) return;
      event.preventDefault();
      this.take([...event.dataTransfer.files]);
    });
  }
}

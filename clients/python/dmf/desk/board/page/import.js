/** The page of an import: which part of it shows what. */
import { beginAnswer, showAnswer } from "./import_answer.js";
import { showContents } from "./import_contents.js";
import { beginEnds, showEnds } from "./import_ends.js";
import { beginFile, showFile } from "./import_file.js";
import { showPreview } from "./import_preview.js";
import { showSettings } from "./import_settings.js";
import { begin, watch } from "./import_state.js";
import { beginTold, showTold } from "./import_told.js";

for (const watcher of [showFile, showAnswer, showContents, showPreview, showEnds, showSettings, showTold]) {
  watch("view", (view, before) => view && watcher(view, before));
}
beginAnswer();
beginFile();
beginEnds();
beginTold();
begin();

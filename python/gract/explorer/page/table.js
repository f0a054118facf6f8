// Answers as tables, with the question as the line and as the Python call. Whatever is shown is text, and never HTML.

import {plain} from "./over.js";

const AT_ONCE = 300;

export const made = (name, into, text = "", settings = {}) => {
  const it = document.createElement(name);
  if (text !== "") it.textContent = plain(text);
  for (const [key, value] of Object.entries(settings)) {
    if (key in it && key !== "role") it[key] = value;
    else it.setAttribute(key, value);
  }
  if (into) into.append(it);
  return it;
};

const copy = async (text, button) => {
  try {
    await navigator.clipboard.writeText(text);
    button.textContent = "Copied";
  } catch {
    // Without leave to write the clipboard the text is selected instead.
    const range = document.createRange();
    range.selectNodeContents(button.previousElementSibling);
    getSelection().removeAllRanges();
    getSelection().addRange(range);
    button.textContent = "Selected";
  }
  setTimeout(() => { button.textContent = "Copy"; }, 1500);
};

// A text to copy.
const copied = (into, label, text) => {
  const box = made("div", into, "", {className: "copied"});
  made("span", box, label, {className: "label"});
  const code = made("code", box, "", {tabIndex: 0});
  code.textContent = text;
  made("button", box, "Copy", {type: "button", "aria-label": `Copy: ${label}`}).addEventListener("click", event => copy(text, event.target));
};

export class Tables {
  constructor(into, app, {choose, goTo, take}) {
    Object.assign(this, {into, app, choose, goTo, take});
  }

  show(answers) {
    this.into.replaceChildren();
    for (const answer of answers) this.one(answer);
  }

  one(answer) {
    const section = made("section", this.into, "", {className: "answer"});
    section.dataset.kind = answer.kind;
    const head = made("h3", section, answer.title, {tabIndex: -1});
    made("span", head, ` ${answer.count}`, {className: "count"});
    for (const note of answer.notes || []) made("p", section, note, {className: "note"});
    if (answer.rows.length) this.table(answer, section);
    const row = made("div", section, "", {className: "buttons"});
    for (const form of ["CSV", "GeoJSON"]) {
      if (form === "GeoJSON" && !this.app.plane.hasDegrees) continue;
      made("button", row, form, {type: "button", "aria-label": `Save this answer as ${form}`}).addEventListener("click", () => this.take(answer, form));
    }
    if (!answer.call) return;
    const details = made("details", section);
    made("summary", details, "The same question elsewhere");
    const more = answer.more ? `\n(and ${answer.more} more lines)` : "";
    copied(details, "Line", answer.lines.join("\n") + more);
    copied(details, "Python", this.app.facts.opening + answer.call);
  }

  table(answer, section) {
    const box = made("div", section, "", {className: "rows", tabIndex: 0, role: "region", "aria-label": `${answer.title}, ${answer.count}`});
    const table = made("table", box);
    made("caption", table, `${answer.title}, ${answer.count}`);
    const head = made("tr", made("thead", table));
    for (const words of answer.heads) made("th", head, words, {scope: "col"});
    const body = made("tbody", table);
    let shown = 0;
    const grow = () => {
      const rows = document.createDocumentFragment();
      for (const row of answer.rows.slice(shown, shown + AT_ONCE)) this.row(answer, row, rows);
      body.append(rows);
      shown = Math.min(answer.rows.length, shown + AT_ONCE);
    };
    grow();
    if (shown === answer.rows.length) return;
    const more = made("button", section, "", {type: "button", className: "more"});
    const label = () => { more.textContent = `Show more: ${shown} of ${answer.rows.length} rows`; };
    label();
    more.addEventListener("click", () => {
      grow();
      if (shown === answer.rows.length) more.remove();
      else label();
    });
  }

  row(answer, row, into) {
    const line = made("tr", into);
    for (const {text, object, instant, place} of answer.cells(row)) {
      const cell = made("td", line);
      if (object === undefined && instant === undefined && place === undefined) {
        cell.textContent = plain(text);
        continue;
      }
      const button = made("button", cell, text, {type: "button", className: "link", dir: "auto"});
      button.addEventListener("click", event => {
        if (object !== undefined) this.choose(object, event.shiftKey);
        else this.goTo({instant, place});
      });
    }
  }
}

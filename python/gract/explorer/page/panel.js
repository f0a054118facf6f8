// What is asked by hand: of a region that was drawn, of an object that was clicked, of a place.

import {Answer} from "./answer.js";
import {askJson} from "./net.js";
import {plain} from "./over.js";
import {Tables} from "./table.js";

const by = id => document.getElementById(id);
const NEIGHBOURS = 5;
// A path is asked of the whole time up to so many instants, and of the days around else.
const WHOLE = 20000, AROUND = 1440;

export class Panel {
  constructor(app, take) {
    this.app = app;
    this.question = null;
    this.answers = [];
    this.control = null;
    this.tables = new Tables(by("answers"), app, {
      choose: (number, isSecond) => this.chooseNumber(number, isSecond), goTo: target => app.goTo(target), take,
    });
    by("ask").addEventListener("submit", event => {
      event.preventDefault();
      this.askRegion();
    });
    by("region").addEventListener("change", () => this.typedRegion());
    by("whole").addEventListener("click", () => this.window(app.times.first, app.times.last));
    by("around").addEventListener("click", () => this.window(app.now - AROUND / 2, app.now + AROUND / 2));
    by("find").addEventListener("submit", event => {
      event.preventDefault();
      this.find(by("find-text").value.trim());
    });
    by("path").addEventListener("click", () => this.askPath());
    by("neighbours").addEventListener("click", () => this.askNeighbours());
    by("meet").addEventListener("click", () => this.askMeet());
    by("let-go").addEventListener("click", () => this.letGo());
    by("list").addEventListener("click", () => this.listView());
    by("clear").addEventListener("click", () => this.clear());
    by("reach").value = app.plane.hasDegrees ? "500 m" : "1";
    this.window(app.times.first, app.times.last);
  }

  // The window that is asked about.

  window(since, until) {
    const {times} = this.app;
    by("since").value = times.text(times.clamp(since));
    by("until").value = times.text(times.clamp(until));
  }

  read() {
    const {times} = this.app, [since, until] = ["since", "until"].map(id => times.read(by(id).value));
    if (since === null || until === null) throw new Error("From and until are times, as 2016-07-02 12:00.");
    return {since, until};
  }

  // Asks, and shows the answers together; a later question takes the place of one that is under way.
  async ask(questions, about = {}) {
    if (this.control) this.control.abort();
    const control = this.control = new AbortController(), began = performance.now();
    by("answers").setAttribute("aria-busy", "true");
    this.app.say("Asking ..");
    try {
      const found = [];
      for (const question of questions) {
        const told = await askJson("/ask", question.asked, control.signal);
        found.push(new Answer(this.app, {...told, ...question.with}));
      }
      this.question = about.question || null;
      this.show(found);
      this.app.took = performance.now() - began;
    } catch (fault) {
      if (fault.name === "AbortError") return;
      this.app.fail(fault);
    } finally {
      if (this.control === control) by("answers").removeAttribute("aria-busy");
    }
  }

  show(answers) {
    this.answers = answers;
    this.tables.show(answers);
    this.app.answer = {
      shapes: answers.flatMap(answer => answer.shapes), points: answers.flatMap(answer => answer.points), lines: answers.flatMap(answer => answer.drawn),
    };
    this.app.touch("over");
    this.app.link();
    this.app.say(answers.map(answer => `${answer.title}: ${answer.count}.`).join(" "));
  }

  clear() {
    this.question = this.app.answer = null;
    this.answers = [];
    this.app.drawing.clear();
    by("region").value = "";
    by("answers").replaceChildren();
    this.app.touch("over");
    this.app.link();
  }

  // Regions.

  typedRegion() {
    const text = by("region").value.trim();
    if (!text) this.app.drawing.clear();
    else if (!this.app.drawing.read(text)) this.app.say("That is no region: write box W,S,E,N, or around LON,LAT metres M, or polygon LON LAT, LON LAT, ..", true);
    this.app.touch("over");
  }

  // A region was drawn: it is asked at once.
  drawn() {
    by("region").value = this.app.drawing.text;
    this.app.touch("over");
    this.askRegion();
  }

  askRegion() {
    const shape = this.app.drawing.shape(), kind = by("kind").value;
    if (!shape) {
      this.app.say("Draw a region first, or type one.", true);
      return;
    }
    try {
      const asked = kind === "slice" ? {kind, at: this.app.now, shape} : {kind, ...this.read(), shape};
      if (kind === "visits" && by("gap").value.trim()) asked.gap = this.gap();
      this.ask([{asked}], {question: {kind, region: this.app.drawing.text, since: by("since").value, until: by("until").value, gap: by("gap").value}});
    } catch (fault) {
      this.app.say(fault.message, true);
    }
  }

  gap() {
    const text = by("gap").value.trim(), length = this.app.times.length(text);
    if (length === null) throw new Error("The gap is a length of time, as 90 min.");
    return length;
  }

  // Objects.

  choose(id, isSecond) {
    const {app} = this;
    app.chosen = isSecond && app.chosen.length && app.chosen[0] !== id ? [app.chosen[0], id] : [id];
    this.showChosen();
    if (app.chosen.length === 2) this.askMeet();
    else this.askObject();
  }

  chooseNumber(number, isSecond) {
    this.choose(this.app.store.objects.id(number), isSecond);
  }

  letGo() {
    this.app.chosen = [];
    this.showChosen();
  }

  showChosen() {
    const {app} = this, names = app.chosen.map(id => app.called(id));
    by("chosen").hidden = !names.length;
    by("chosen-names").textContent = plain(names.join(" and "));
    by("meet").disabled = names.length < 2;
    app.touch("over");
    app.link();
  }

  get numbers() {
    return this.app.chosen.map(id => this.app.store.objects.numbers[id]);
  }

  pathQuestion(number) {
    const {times, now} = this.app, {since, until} = this.read();
    const isLong = until - since > WHOLE, window = isLong ? {since: times.clamp(now - AROUND), until: times.clamp(now + AROUND)} : {since, until};
    return {asked: {kind: "path", object: number, ...window}, with: {about: this.app.nameOf(number), common: {object: number}}};
  }

  neighbourQuestion(number) {
    const {painter, view, now} = this.app, mark = painter.mark(this.app.store.objects.id(number));
    if (!mark) return null;
    const cell = [Math.floor(view.cx(mark[0])), Math.floor(view.cy(mark[1]))];
    return {
      asked: {kind: "nearest", count: NEIGHBOURS, at: now, cell, without: number},
      with: {about: `to ${this.app.nameOf(number)}`, from: [cell[0] + 0.5, cell[1] + 0.5], common: {instant: now}},
    };
  }

  // A click on an object: its neighbours, and its path.
  askObject() {
    this.tried(() => {
      const [number] = this.numbers, questions = [this.neighbourQuestion(number), this.pathQuestion(number)].filter(Boolean);
      this.ask(questions, {question: {kind: "object", object: number}});
    });
  }

  askPath() {
    this.tried(() => this.ask([this.pathQuestion(this.numbers[0])], {question: {kind: "path", object: this.numbers[0]}}));
  }

  askNeighbours() {
    const question = this.neighbourQuestion(this.numbers[0]);
    if (question) this.ask([question], {question: {kind: "neighbours", object: this.numbers[0]}});
    else this.app.say("It has no mark at this time.", true);
  }

  askMeet() {
    this.tried(() => {
      const [left, right] = this.numbers, text = by("reach").value.trim(), found = /^(\d+(?:\.\d+)?) *(m|km|cells)?$/.exec(text);
      if (!found) throw new Error("The distance is of metres, as 500 m, or of cells.");
      const isMetres = this.app.plane.hasDegrees && found[2] !== "cells";
      const reach = isMetres ? {metres: found[2] === "km" ? 1000 * found[1] : +found[1]} : {reach: Math.ceil(+found[1])};
      const about = `${this.app.nameOf(left)} and ${this.app.nameOf(right)} within ${text}`;
      this.ask([{asked: {kind: "meet", left, right, ...this.read(), ...reach}, with: {about, common: {left, right}}}], {question: {kind: "meet", left, right, reach: text}});
    });
  }

  askNearest(x, y) {
    const cell = [Math.floor(x), Math.floor(y)], {now} = this.app;
    const told = {about: `to ${this.app.plane.placeText(x, y)}`, from: [x, y], common: {instant: now}};
    this.ask([{asked: {kind: "nearest", count: NEIGHBOURS, at: now, cell}, with: told}], {question: {kind: "nearest", cell}});
  }

  tried(work) {
    try {
      work();
    } catch (fault) {
      this.app.say(fault.message, true);
    }
  }

  // Whoever is in view, as a table: by this all that is on the map can be read and chosen without looking.
  listView() {
    const {painter, store, view, now} = this.app;
    const rows = painter.inView.map(id => {
      const [px, py] = painter.mark(id);
      return [store.objects.numbers[id], Math.floor(view.cx(px)), Math.floor(view.cy(py))];
    }).sort((one, other) => one[0] - other[0]);
    const told = {kind: "view", columns: ["object", "x", "y"], rows, notes: [], lines: [], shapes: [], call: "", common: {instant: now}};
    this.show([new Answer(this.app, {...told, about: this.app.times.said(now)})]);
    by("answers").querySelector("h3").focus();
  }

  // Finds an object by its name, a part of it, or its number.
  async find(text) {
    if (!text) return;
    const {app} = this, wanted = text.toLowerCase();
    const named = [...app.names].filter(([, name]) => name.toLowerCase().includes(wanted));
    const exact = named.filter(([, name]) => name.toLowerCase() === wanted), found = exact.length ? exact : named;
    const number = found.length === 1 ? found[0][0] : /^\d{1,10}$/.test(text) ? +text : null;
    if (number === null) {
      const few = found.slice(0, 8).map(([, name]) => name).join(", ");
      app.say(found.length ? `${found.length} objects are called so: ${few}${found.length > 8 ? ", .." : ""}` : `Nobody is called ${text}.`, true);
    } else if (app.isKnown(number)) await app.showObject(number);
    else app.say(`Nobody has the number ${number}.`, true);
  }
}

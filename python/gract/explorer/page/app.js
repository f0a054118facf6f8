// The map: what is shown of which instant, and who is told when it changes.

import {Base} from "./base.js";
import {Drawing} from "./draw.js";
import {Link} from "./link.js";
import {Loader} from "./loader.js";
import {Over, plain} from "./over.js";
import {Painter} from "./paint.js";
import {Panel} from "./panel.js";
import {Plane} from "./plane.js";
import {Player} from "./player.js";
import {Store} from "./store.js";
import {Take} from "./take.js";
import {Theme} from "./theme.js";
import {Times} from "./times.js";
import {View} from "./view.js";

const SEGMENTS = 8;
// After so many milliseconds without a move the trails' own paths are asked, and what is shown is said.
const STILL = 250;
const MOST_PATHS = 5000;
// While something moves trails are of slices alone, at most eight segments each.
const NONE = new Map();

const by = id => document.getElementById(id);

export class App {
  constructor(facts) {
    this.facts = facts;
    this.times = new Times(facts);
    this.plane = new Plane(facts);
    this.view = new View(this.plane);
    this.store = new Store();
    this.names = new Map();
    this.known = null;
    this.now = facts.last;
    this.shown = this.newest = null;
    this.trail = 0;
    this.paths = new Map();
    this.chosen = [];
    this.answer = null;
    this.hasNames = true;
    this.cursor = {x: null, y: null, isShown: false};
    this.dirty = new Set();
    this.frames = 0;
    this.loader = new Loader(this.store, this.view, facts, {
      loaded: instants => this.loaded(instants), arrived: instant => this.arrived(instant), failed: fault => this.fail(fault),
    });
    this.canvases = ["base", "marks", "over"].map(by);
    this.base = new Base(this.canvases[0], this.view);
    this.painter = new Painter(this.canvases[1], this.store);
    this.over = new Over(this.canvases[2], this);
    this.drawing = new Drawing(this.view, () => this.panel.drawn());
    this.theme = new Theme(() => this.recolour());
    this.recolour();
    new ResizeObserver(() => this.resize()).observe(by("stage"));
    this.resize();
    this.showAll();
    this.player = new Player(this);
    this.player.show();
    this.take = new Take(this);
    this.panel = new Panel(this, (answer, form) => this.take.answer(answer, form));
    this.linked = new Link(this);
    this.frame = this.frame.bind(this);
    requestAnimationFrame(this.frame);
  }

  // Names.

  nameOf(number) {
    return plain(this.names.get(number) || String(number));
  }

  called(id) {
    return this.nameOf(this.store.objects.numbers[id]);
  }

  isKnown(number) {
    return this.store.objects.ids.has(number) || !this.known || this.known.has(number);
  }

  // A row under the names of the package's columns.
  record(object, instant, x, y) {
    const found = {object};
    if (this.names.size) found.name = this.names.get(object) || "";
    found.instant = instant;
    if (this.times.seconds !== null) found.time = this.times.text(instant);
    Object.assign(found, {x, y});
    if (!this.plane.hasDegrees) return found;
    return {...found, longitude: +this.plane.longitude(x + 0.5).toFixed(5), latitude: +this.plane.latitude(y + 0.5).toFixed(5)};
  }

  // Drawing. What is touched is drawn with the next frame.

  touch(...layers) {
    for (const layer of layers) this.dirty.add(layer);
  }

  frame(moment) {
    requestAnimationFrame(this.frame);
    this.player.tick(moment);
    if (!this.dirty.size) return;
    const {colours} = this.theme;
    if (this.dirty.has("base")) this.base.draw(colours);
    if (this.dirty.has("marks")) this.drawMarks();
    this.over.draw(colours);
    this.dirty.clear();
    this.frames++;
  }

  // The slice of now, or until it is there the one that came last.
  drawMarks() {
    this.shown = this.loader.get(this.now) || (this.newest !== null && this.loader.get(this.newest)) || this.shown;
    if (!this.shown) return;
    const before = this.trailInstants(this.shown.instant).map(instant => this.loader.get(instant)).filter(Boolean);
    this.painter.draw(this.view, this.shown, before, this.isMoving ? NONE : this.paths);
    by("count").textContent = this.countText();
  }

  countText() {
    const {inView, lately} = this.painter, late = lately.length ? `, ${lately.length.toLocaleString("en")} seen before` : "";
    const wait = this.shown.instant === this.now ? "" : " (loading)";
    return `${inView.length.toLocaleString("en")} in view${late}${wait}`;
  }

  // The instants whose slices make the trails, the newest first: at most eight, and the same ones for many instants on end.
  trailInstants(instant = this.now) {
    if (!this.trail) return [];
    const {step} = this.player, gap = Math.ceil(this.trail / SEGMENTS / step) * step, offset = instant % step, found = [];
    for (let at = Math.floor((instant - 1 - offset) / gap) * gap + offset; at >= instant - this.trail && found.length < SEGMENTS; at -= gap) {
      if (at >= this.times.first && at < instant) found.push(at);
    }
    return found;
  }

  // The trails that are drawn, as places.
  trails() {
    const found = [...this.paths.values()].map(({id, number, x, y, count}) => ({id, number, places: Array.from({length: count}, (_, nth) => [x[nth] + 0.5, y[nth] + 0.5])}));
    return found.filter(({places, id}) => places.length > 1 && this.painter.mark(id));
  }

  recolour() {
    if (!this.over) return;
    this.painter.colour(this.theme ? this.theme.colours : {objects: []});
    this.touch("base", "marks", "over");
  }

  resize() {
    const box = by("stage").getBoundingClientRect(), density = Math.min(2, devicePixelRatio || 1);
    this.view.size(box.width, box.height);
    for (const layer of [this.base, this.painter, this.over]) layer.size(box.width, box.height, density);
    this.touch("base", "marks", "over");
  }

  // The view.

  viewMoved() {
    this.moved();
    if (!this.facts.isWhole) this.loader.scrub(this.now);
    this.touch("base", "marks", "over");
  }

  pan(dx, dy) {
    this.view.pan(dx, dy);
    this.viewMoved();
  }

  zoom(factor, x, y) {
    this.view.zoom(factor, x, y);
    this.viewMoved();
  }

  showAll() {
    this.view.fit(this.facts.box || [-10, -10, 10, 10]);
    this.viewMoved();
  }

  // Time.

  setNow(instant) {
    if (instant === this.now) return;
    this.now = instant;
    this.paths.clear();
    this.player.show();
    this.moved();
    this.touch("marks");
  }

  loaded(instants) {
    if (instants.includes(this.now) || !this.shown || this.trailInstants().some(instant => instants.includes(instant))) this.touch("marks");
  }

  // The slider's newest instant is there; while it moves on this is shown.
  arrived(instant) {
    this.newest = instant;
    this.touch("marks");
  }

  setTrail(instants) {
    this.trail = instants;
    by("trail").value = instants;
    this.paths.clear();
    this.moved();
    this.touch("marks");
  }

  // Something moves: what is asked of a still map is let go, and asked anew once nothing moves.
  moved() {
    this.isMoving = true;
    this.loader.moved();
    clearTimeout(this.stillTimer);
    this.stillTimer = setTimeout(() => this.settle(), STILL);
  }

  settle() {
    if (!this.player || this.player.isPlaying) return;
    this.isMoving = false;
    this.touch("marks");
    this.link();
    if (this.shown) this.summary();
    if (!this.loader.get(this.now)) this.loader.scrub(this.now);
    if (!this.trail) return;
    this.loader.ahead(this.trailInstants());
    const ids = this.painter.inView.concat(this.painter.lately).filter(id => !this.paths.has(id)).slice(0, MOST_PATHS);
    if (!ids.length) return;
    const numbers = ids.map(id => this.store.objects.numbers[id]), {now} = this;
    this.loader.paths(numbers, Math.max(now - this.trail, this.times.first), now, paths => {
      for (const path of paths) this.paths.set(path.id, path);
      this.touch("marks");
    });
  }

  // Once the slice of now is drawn.
  async still() {
    while (!this.shown || this.shown.instant !== this.now) await new Promise(requestAnimationFrame);
  }

  // What a screen reader is told of the map.
  summary() {
    const {view, plane} = this, wide = plane.distanceText(view.wide / view.across * plane.metresEast(view.y));
    by("summary").textContent = `${this.times.said(this.now)}: ${this.countText()}. The map is ${wide} wide, its middle is ${plane.placeText(view.x, view.y)}.`;
  }

  // Tools.

  setTool(tool) {
    this.drawing.take(tool);
    document.querySelector(`input[name=tool][value=${tool}]`).checked = true;
    by("over").dataset.tool = tool;
    this.touch("over");
  }

  press(x, y, isSecond, isKey = false) {
    const {view, drawing} = this;
    if (drawing.isDrawing) drawing.press(view.cx(x), view.cy(y), isKey);
    else if (drawing.tool === "near") this.panel.askNearest(view.cx(x), view.cy(y));
    else {
      const id = this.painter.at(x, y, 12);
      if (id >= 0) this.panel.choose(id, isSecond || by("second").checked);
    }
    this.touch("over");
  }

  release(x, y) {
    this.drawing.end(this.view.cx(x), this.view.cy(y));
    this.touch("over");
  }

  pointed(x, y) {
    by("place").textContent = this.plane.placeText(this.view.cx(x), this.view.cy(y));
    if (this.drawing.isDrawing && this.drawing.move(this.view.cx(x), this.view.cy(y))) this.touch("over");
  }

  escape() {
    if (!this.drawing.isDone) this.drawing.clear();
    this.setTool("look");
  }

  goTo({instant, place}) {
    if (instant !== undefined) this.player.scrub(this.times.clamp(instant));
    if (place) {
      [this.view.x, this.view.y] = place;
      this.viewMoved();
    }
  }

  // Goes to where an object is now, or where it has its first row.
  async showObject(number) {
    const id = this.store.objects.id(number);
    if (!this.painter.mark(id)) {
      const first = this.known && this.known.get(number);
      if (first) this.goTo(first);
      await this.still();
      await new Promise(requestAnimationFrame);
    }
    const mark = this.painter.mark(id);
    if (mark) this.goTo({place: [this.view.cx(mark[0]), this.view.cy(mark[1])]});
    this.panel.choose(id, false);
  }

  setNames(isOn) {
    this.hasNames = by("names").checked = isOn;
    this.touch("over");
    this.moved();
  }

  setUnit(unit) {
    this.base.unit = by("unit").value = unit;
    this.touch("base", "over");
    this.moved();
  }

  link() {
    this.linked.later();
  }

  // Messages.

  say(text, isFault = false) {
    by("told").textContent = plain(text);
    by("told").classList.toggle("is-fault", isFault);
  }

  fail(fault) {
    if (fault.name === "AbortError") return;
    this.player.stop();
    this.onFault(fault);
  }
}

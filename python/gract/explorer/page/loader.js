// Asks for slices and paths: for play in batches, two seconds ahead; for the slider the newest instant only; and, while nothing moves,
// the trails' own paths.

import {askBytes} from "./net.js";
import {pathsIn, slicesIn} from "./store.js";

const BATCH = 8, AT_ONCE = 2, PATHS = 200, MOST_WHOLE = 20000;

export class Loader {
  constructor(store, view, facts, {loaded, arrived, failed}) {
    Object.assign(this, {store, view, facts, loaded, arrived, failed});
    this.asked = new Map();
    this.scrubbing = this.turn = this.newest = 0;
    this.wanted = null;
    this.still = null;
  }

  // Slices are of everything, or where there are very many objects of what is in view, and asked with half as much around.
  get seen() {
    return this.facts.isWhole ? null : this.view.rect();
  }

  get(instant) {
    return this.store.get(instant, this.seen);
  }

  async fetchSlices(instants, signal) {
    const rect = this.facts.isWhole ? null : this.view.rect(0.5);
    const buffer = await askBytes("/slices", {instants, rect}, signal);
    for (const slice of slicesIn(buffer, this.store.objects)) {
      if (slice.count > MOST_WHOLE) this.facts.isWhole = false;
      this.store.add(slice, rect);
    }
    this.loaded(instants);
  }

  // Asks for those of some instants that are not there, as many batches at once as may be.
  ahead(instants) {
    const waiting = new Set([...this.asked.values()].flat());
    const missing = instants.filter(instant => !waiting.has(instant) && !this.get(instant));
    while (missing.length && this.asked.size < AT_ONCE) {
      const batch = missing.splice(0, BATCH), control = new AbortController();
      this.asked.set(control, batch);
      this.fetchSlices(batch, control.signal).catch(fault => this.fail(fault)).finally(() => this.asked.delete(control));
    }
  }

  // Lets go of what was asked ahead.
  stop() {
    for (const control of this.asked.keys()) control.abort();
    this.asked.clear();
  }

  // The slice of one instant. While two are being asked, of those that come the newest alone is kept.
  scrub(instant) {
    this.wanted = instant;
    if (this.scrubbing < AT_ONCE) this.scrubOne();
  }

  async scrubOne() {
    const instant = this.wanted, turn = ++this.turn;
    this.wanted = null;
    this.scrubbing++;
    try {
      if (!this.get(instant)) await this.fetchSlices([instant]);
      // One that was overtaken is not shown.
      if (turn > this.newest) {
        this.newest = turn;
        this.arrived(instant);
      }
    } catch (fault) {
      this.fail(fault);
    } finally {
      this.scrubbing--;
    }
    if (this.wanted !== null && this.scrubbing < AT_ONCE) this.scrubOne();
  }

  // The paths of objects in a window, some at a time, until all are there or something moves.
  async paths(numbers, since, until, each) {
    this.moved();
    const control = this.still = new AbortController();
    try {
      for (let at = 0; at < numbers.length; at += PATHS) {
        const objects = numbers.slice(at, at + PATHS);
        const buffer = await askBytes("/paths", {objects, since, until}, control.signal);
        if (control.signal.aborted) return;
        each(pathsIn(buffer, this.store.objects));
      }
    } catch (fault) {
      this.fail(fault);
    }
  }

  moved() {
    if (this.still) this.still.abort();
    this.still = null;
  }

  fail(fault) {
    if (fault.name !== "AbortError") this.failed(fault);
  }
}

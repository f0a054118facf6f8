// Time: the slider, play with its step and speed, and typed dates.

const AHEAD_SECONDS = 2;
const by = id => document.getElementById(id);

export class Player {
  constructor(app) {
    this.app = app;
    this.isPlaying = false;
    this.step = 1;
    this.speed = 10;
    const {times} = app, slider = by("time");
    slider.min = times.first;
    slider.max = times.last;
    slider.addEventListener("input", () => this.scrub(+slider.value));
    by("now").addEventListener("change", () => this.typed());
    by("play").addEventListener("click", () => this.turn());
    by("back").addEventListener("click", () => this.move(-1));
    by("forth").addEventListener("click", () => this.move(1));
    by("speed").addEventListener("change", () => this.setSpeed(+by("speed").value));
    by("step").addEventListener("change", () => this.typedStep());
    by("trail").addEventListener("change", () => app.setTrail(+by("trail").value));
    this.lengths();
  }

  // The trails that make sense for instants as long as these, and the first of them that has some instants.
  lengths() {
    const {app: {times}} = this, seconds = times.seconds || 1, isDated = times.seconds !== null;
    const choices = isDated ? [3600, 6 * 3600, 86400, 7 * 86400].map(length => Math.round(length / seconds)).filter(count => count >= 1) : [8, 60, 1440];
    for (const count of [0, ...choices]) {
      const option = document.createElement("option");
      option.value = count;
      option.textContent = count ? times.lengthText(count) : "none";
      by("trail").append(option);
    }
    this.app.trail = choices.find(count => count >= 8) || 0;
    by("trail").value = this.app.trail;
    by("step").value = times.lengthText(1);
  }

  typed() {
    const instant = this.app.times.read(by("now").value);
    if (instant === null) this.app.say("That is no time: write it as 2016-07-02 12:00.", true);
    else this.scrub(this.app.times.clamp(instant));
    by("now").value = this.app.times.text(this.app.now);
  }

  typedStep() {
    const length = this.app.times.length(by("step").value);
    if (length) this.step = Math.min(length, Math.max(1, this.app.times.last - this.app.times.first));
    by("step").value = this.app.times.lengthText(this.step);
    this.start();
  }

  setSpeed(speed) {
    this.speed = speed;
    this.start();
  }

  // Goes to an instant, whether or not its slice is there.
  scrub(instant) {
    this.start();
    this.app.loader.stop();
    this.app.setNow(instant);
    this.app.loader.scrub(instant);
  }

  move(steps) {
    this.stop();
    this.scrub(this.app.times.clamp(this.app.now + steps * this.step));
  }

  turn() {
    if (this.isPlaying) this.stop();
    else this.play();
  }

  play() {
    if (this.app.now >= this.app.times.last) this.app.setNow(this.app.times.first);
    this.isPlaying = true;
    this.start();
    this.show();
    this.app.touch("marks");
  }

  stop() {
    if (!this.isPlaying) return;
    this.isPlaying = false;
    this.app.loader.stop();
    this.show();
    this.app.moved();
  }

  // Time runs from here on.
  start() {
    this.from = null;
  }

  // One frame of play: the newest instant that is due and there.
  tick(moment) {
    if (!this.isPlaying) return;
    const {app} = this;
    if (this.from === null) this.from = {moment, instant: app.now};
    const due = Math.floor((moment - this.from.moment) / 1000 * this.speed);
    const target = Math.min(app.times.last, this.from.instant + due * this.step);
    let found = target;
    while (found > app.now && !app.loader.get(found)) found -= this.step;
    if (found > app.now) app.setNow(found);
    // What is not there yet is waited for, and nothing is left out for it.
    if (found < target) this.from = {moment, instant: Math.max(found, app.now)};
    app.loader.ahead(this.next());
    if (app.now >= app.times.last) this.stop();
  }

  // The instants of the next two seconds, and those of the trails before them.
  next() {
    const {app, step} = this, count = Math.max(4, Math.ceil(AHEAD_SECONDS * this.speed)), found = [];
    for (let nth = 1; nth <= count && app.now + nth * step <= app.times.last; nth++) found.push(app.now + nth * step);
    return [...found.slice(0, 8), ...app.trailInstants(), ...found.slice(8)];
  }

  show() {
    const {app} = this;
    by("time").value = app.now;
    if (document.activeElement !== by("now")) by("now").value = app.times.text(app.now);
    by("time").setAttribute("aria-valuetext", app.times.said(app.now));
    by("play").textContent = this.isPlaying ? "Pause" : "Play";
    by("play").setAttribute("aria-pressed", this.isPlaying);
  }
}

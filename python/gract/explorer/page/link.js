// What stands behind `#`: view, time, and question, without the secret; and what of a link is taken.

const by = id => document.getElementById(id);

export class Link {
  constructor(app) {
    this.app = app;
    this.timer = null;
    by("copy-link").addEventListener("click", () => this.copy());
    addEventListener("hashchange", () => this.take(location.hash.slice(1)));
  }

  get text() {
    const {app} = this, {panel} = app;
    const pairs = {at: app.times.text(app.now).replace(" ", "T"), view: app.view.state, trail: app.trail};
    if (!app.hasNames) pairs.names = 0;
    if (app.base.unit !== "degrees") pairs.unit = app.base.unit;
    if (panel.question) pairs.ask = JSON.stringify(panel.question);
    return Object.entries(pairs).map(([name, value]) => `${name}=${encodeURIComponent(value)}`).join("&");
  }

  // Writes it into the address, a while after the last change: browsers bear only so many changes.
  later() {
    clearTimeout(this.timer);
    this.timer = setTimeout(() => history.replaceState(null, "", `#${this.text}`), 300);
  }

  async copy() {
    const link = `${location.origin}/#${this.text}`;
    try {
      await navigator.clipboard.writeText(link);
      this.app.say("The link is copied. python3 -m gract explore INDEX --at LINK opens it.");
    } catch {
      history.replaceState(null, "", `#${this.text}`);
      this.app.say("The link stands in the address: copy it there.");
    }
  }

  // Shows what a link says, as far as it can be read.
  take(text) {
    const {app} = this, pairs = new Map();
    for (const pair of text.split("&")) {
      const [name, value = ""] = pair.split("=", 2);
      try {
        pairs.set(name, decodeURIComponent(value));
      } catch {
        // Half a percent sign is no value.
      }
    }
    if (pairs.has("view")) app.view.state = pairs.get("view");
    if (pairs.has("names")) app.setNames(pairs.get("names") !== "0");
    if (pairs.has("unit")) app.setUnit(pairs.get("unit") === "metres" ? "metres" : "degrees");
    if (/^\d{1,8}$/.test(pairs.get("trail") || "")) app.setTrail(+pairs.get("trail"));
    const instant = app.times.read((pairs.get("at") || "").replace("T", " "));
    if (instant !== null) app.player.scrub(app.times.clamp(instant));
    if (pairs.has("ask")) this.ask(pairs.get("ask"));
    app.touch("base", "marks", "over");
  }

  // The question of a link; what is none is left out.
  async ask(text) {
    const {app} = this, {panel} = app;
    let question;
    try {
      question = JSON.parse(text);
    } catch {
      return;
    }
    if (question === null || typeof question !== "object") return;
    const kept = id => { if (typeof question[id] === "string") by(id).value = question[id].slice(0, 20000); };
    await app.still();
    if (typeof question.region === "string" && ["interval", "visits", "slice"].includes(question.kind)) {
      ["kind", "region", "since", "until", "gap"].forEach(kept);
      panel.typedRegion();
      panel.askRegion();
    } else if (question.kind === "nearest" && Array.isArray(question.cell)) panel.askNearest(...question.cell.slice(0, 2).map(Number));
    else if (question.kind === "meet") {
      kept("reach");
      app.chosen = [question.left, question.right].map(number => app.store.objects.id(+number));
      panel.showChosen();
      panel.askMeet();
    } else if (Number.isInteger(question.object)) panel.chooseNumber(question.object, false);
  }
}

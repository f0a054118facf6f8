// An answer: what of it is drawn, what stands in its table, and its columns for files, which are those of the package for Python.

const DIGITS = 5;

// The columns of each kind of row that are an object, an instant, or the x of a cell.
const OBJECTS = {object: "name", left: "left_name", right: "right_name"};
const INSTANTS = {instant: "time", entry: "entry_time", exit: "exit_time"};
const HEADS = {
  object: "Object", instant: "Time (UTC)", entry: "Came", exit: "Left", rows: "Reports", squared: "Distance", x: "Place", entry_x: "Came at",
  exit_x: "Left at", left_x: "The first's place", right_x: "The second's place",
};
const TITLES = {interval: "Who was there, and when first", visits: "Visits", slice: "Who is there", path: "Path", nearest: "Nearest", meet: "First met",
  view: "In view"};

export class Answer {
  constructor(app, told) {
    Object.assign(this, told);
    this.app = app;
    this.common = told.common || {};
    const at = name => told.columns.indexOf(name);
    this.places = told.columns.filter(name => name === "x" || name.endsWith("_x"));
    this.points = told.kind === "path" ? [] : told.rows.flatMap(row => this.places.map(name => [row[at(name)] + 0.5, row[at(name) + 1] + 0.5]));
    this.drawn = told.kind === "path" ? [told.rows.map((row, nth) => [row[1] + 0.5, row[2] + 0.5, nth > 0 && row[0] === told.rows[nth - 1][0] + 1])] : [];
    if (told.kind === "nearest" && told.from) this.drawn = told.rows.map(row => [[...told.from, false], [row[1] + 0.5, row[2] + 0.5, true]]);
  }

  get title() {
    const words = TITLES[this.kind];
    return this.about ? `${words}: ${this.about}` : words;
  }

  get heads() {
    return this.columns.filter(name => name !== "y" && !name.endsWith("_y")).map(name => name === "instant" && this.app.times.seconds === null ? "Instant" : HEADS[name] || name);
  }

  // The cells of a row of the table: a text each, and the object, instant or place that it leads to.
  cells(row) {
    const {times, plane} = this.app, found = [];
    this.columns.forEach((name, nth) => {
      const value = row[nth];
      if (name in OBJECTS) found.push({text: this.app.nameOf(value), object: value});
      else if (name in INSTANTS) found.push({text: times.text(value), instant: value});
      else if (name === "x" || name.endsWith("_x")) found.push({text: plane.placeText(value + 0.5, row[nth + 1] + 0.5), place: [value + 0.5, row[nth + 1] + 0.5]});
      else if (name === "squared") found.push({text: this.distance(row, value)});
      else if (name !== "y" && !name.endsWith("_y")) found.push({text: String(value)});
    });
    return found;
  }

  distance(row, squared) {
    const {plane} = this.app;
    return this.from && plane.hasDegrees ? plane.distanceText(plane.distance(this.from, [row[1] + 0.5, row[2] + 0.5])) : `${Math.sqrt(squared).toFixed(1)} cells`;
  }

  // A row with what the grid makes of it, under the names of the package.
  record(row) {
    const {times, plane} = this.app, found = {};
    const values = {...this.common, ...Object.fromEntries(this.columns.map((name, nth) => [name, row[nth]]))};
    for (const [name, value] of Object.entries(values)) {
      found[name] = value;
      if (name in OBJECTS && this.app.names.size) found[OBJECTS[name]] = this.app.names.get(value) || "";
      if (name in INSTANTS && times.seconds !== null) found[INSTANTS[name]] = times.text(value);
      if ((name === "y" || name.endsWith("_y")) && plane.hasDegrees) {
        const part = name.slice(0, -1), x = values[`${part}x`];
        found[`${part}longitude`] = +plane.longitude(x + 0.5).toFixed(DIGITS);
        found[`${part}latitude`] = +plane.latitude(value + 0.5).toFixed(DIGITS);
      }
    }
    return found;
  }

  get records() {
    return this.rows.map(row => this.record(row));
  }

  // How many rows there are, for people.
  get count() {
    const rows = this.rows.length, nouns = {visits: "visit", path: "report", meet: "meeting"};
    return `${rows.toLocaleString("en")} ${nouns[this.kind] || "object"}${rows === 1 ? "" : "s"}`;
  }
}

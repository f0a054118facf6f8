// What is taken along: of what is seen, and of an answer, as GeoJSON, CSV, SVG and PNG.

import {plain} from "./over.js";

const save = (name, data, kind) => {
  const link = document.createElement("a");
  link.href = URL.createObjectURL(new Blob([data], {type: kind}));
  link.download = name;
  link.click();
  setTimeout(() => URL.revokeObjectURL(link.href), 10000);
};

// A field of CSV. A text that a spreadsheet would take for a formula stands behind an apostrophe.
const field = value => {
  let text = String(value);
  if (typeof value === "string" && /^[=+\-@\t\r]/.test(text)) text = `'${text}`;
  return /[",\r\n]/.test(text) ? `"${text.replaceAll('"', '""')}"` : text;
};

export const csvOf = records => {
  if (!records.length) return "";
  return [Object.keys(records[0]), ...records.map(Object.values)].map(row => `${row.map(field).join(",")}\n`).join("");
};

const collection = features => `${JSON.stringify({type: "FeatureCollection", features}, null, 1)}\n`;

const pointOf = record => {
  const [longitude, latitude] = Object.keys(record).filter(name => /(longitude|latitude)$/.test(name));
  const {[longitude]: east, [latitude]: north, ...properties} = record;
  return {type: "Feature", geometry: {type: "Point", coordinates: [east, north]}, properties};
};

const lineOf = (places, properties) => ({type: "Feature", geometry: {type: "LineString", coordinates: places}, properties});

// The features of an answer: a line for a path, and a point for each row of another.
export const featuresOf = answer => {
  const records = answer.records;
  if (answer.kind !== "path" || records.length < 2) return records.map(pointOf);
  const {object, name} = records[0];
  const properties = {object, ...(name === undefined ? {} : {name}), instants: records.map(it => it.instant), times: records.map(it => it.time)};
  return [lineOf(records.map(it => [it.longitude, it.latitude]), properties)];
};

export class Take {
  constructor(app) {
    this.app = app;
    for (const form of ["GeoJSON", "CSV", "SVG", "PNG"]) {
      document.getElementById(`take-${form.toLowerCase()}`).addEventListener("click", () => this.map(form));
    }
  }

  get name() {
    return `${this.app.facts.title.replace(/[^\w.-]+/g, "_")}-${this.app.times.text(this.app.now).replace(/\W+/g, "-")}`;
  }

  answer(answer, form) {
    if (form === "CSV") save(`${this.name}-${answer.kind}.csv`, csvOf(answer.records), "text/csv");
    else save(`${this.name}-${answer.kind}.geojson`, collection(featuresOf(answer)), "application/geo+json");
  }

  map(form) {
    if (form === "CSV") save(`${this.name}.csv`, csvOf(this.records()), "text/csv");
    if (form === "GeoJSON") save(`${this.name}.geojson`, this.geojson(), "application/geo+json");
    if (form === "SVG") save(`${this.name}.svg`, this.svg(), "image/svg+xml");
    if (form === "PNG") this.png();
  }

  // Who is in view, under the names of the package's columns.
  records() {
    const {app} = this, slice = app.shown, inView = new Set(app.painter.inView), found = [];
    for (let nth = 0; slice && nth < slice.count; nth++) {
      const id = slice.ids[nth];
      if (inView.has(id)) found.push(app.record(app.store.objects.numbers[id], slice.instant, slice.x[nth], slice.y[nth]));
    }
    return found.sort((one, other) => one.object - other.object);
  }

  // The marks that are seen, the trails behind them, and the last answer.
  geojson() {
    const {app} = this, features = app.plane.hasDegrees ? this.records().map(pointOf) : [];
    const place = ([x, y]) => [+app.plane.longitude(x).toFixed(5), +app.plane.latitude(y).toFixed(5)];
    for (const {number, places} of app.trails()) {
      features.push(lineOf(places.map(place), {object: number, name: app.names.get(number) || "", trail: true}));
    }
    return collection([...features, ...app.panel.answers.flatMap(featuresOf)]);
  }

  svg() {
    const {app} = this, {view, theme: {colours}} = app, parts = [];
    const round = number => +number.toFixed(1), at = ([x, y]) => `${round(view.px(x))} ${round(view.py(y))}`;
    const safe = text => plain(text).replace(/[&<>"']/g, letter => `&#${letter.charCodeAt(0)};`);
    const path = (places, settings, end = "") => parts.push(`<path d="M${places.map(at).join("L")}${end}" ${settings}/>`);
    const text = (x, y, words) => parts.push(`<text x="${round(x)}" y="${round(y)}">${safe(words)}</text>`);
    parts.push(`<rect width="${view.wide}" height="${view.high}" fill="${colours.water}"/>`);
    for (const {kind, places, box} of app.base.rings) {
      const [x1, y1, x2, y2] = view.rect(0.05);
      if (box[0] > x2 || box[2] < x1 || box[1] > y2 || box[3] < y1) continue;
      const ring = Array.from({length: places.length / 2}, (_, nth) => [places[2 * nth], places[2 * nth + 1]]);
      path(ring, `fill="${["land", "lake"].map(name => colours[name])[kind] || "none"}" stroke="${kind < 2 && app.base.hasShores ? "none" : colours.shore}"`, kind < 2 ? "Z" : "");
    }
    for (const {isX, at: where} of app.base.labels) {
      parts.push(`<path d="M${isX ? `${round(where)} 0V${view.high}` : `0 ${round(where)}H${view.wide}`}" stroke="${colours.line}"/>`);
    }
    for (const {id, places} of app.trails()) path(places, `fill="none" stroke="${colours.objects[app.store.objects.colours[id]]}" stroke-opacity="0.6"`);
    for (const id of app.painter.inView) {
      const [x, y] = app.painter.mark(id), radius = app.painter.radius / app.painter.density;
      parts.push(`<circle cx="${round(x)}" cy="${round(y)}" r="${radius}" fill="${colours.objects[app.store.objects.colours[id]]}" stroke="${colours.edge}"/>`);
    }
    const answer = app.answer || {points: [], lines: []};
    for (const line of answer.lines) if (line.length > 1) path(line, `fill="none" stroke="${colours.hand}" stroke-width="1.5"`);
    for (const [x, y] of answer.points) parts.push(`<circle cx="${round(view.px(x))}" cy="${round(view.py(y))}" r="6" fill="none" stroke="${colours.hand}" stroke-width="2"/>`);
    for (const {isX, at: where, text: words} of app.base.labels) text(isX ? where + 3 : 4, isX ? view.high - 6 : where - 4, words);
    if (app.hasNames && app.painter.inView.length <= 150) {
      for (const id of app.painter.inView) text(app.painter.mark(id)[0] + 8, app.painter.mark(id)[1] - 4, app.called(id));
    }
    text(10, 20, `${app.facts.title}, ${app.times.said(app.now)}; ${app.facts.coast}`);
    const size = `width="${view.wide}" height="${view.high}" viewBox="0 0 ${view.wide} ${view.high}"`;
    return `<svg xmlns="http://www.w3.org/2000/svg" ${size} font-family="sans-serif" font-size="12" fill="${colours.text}">\n${parts.join("\n")}\n</svg>\n`;
  }

  png() {
    const {app} = this, canvas = document.createElement("canvas"), [first] = app.canvases;
    canvas.width = first.width;
    canvas.height = first.height;
    const context = canvas.getContext("2d");
    for (const layer of app.canvases) context.drawImage(layer, 0, 0);
    context.fillStyle = app.theme.colours.text;
    context.font = `${13 * app.painter.density}px sans-serif`;
    context.fillText(plain(`${app.facts.title}, ${app.times.said(app.now)}`), 10 * app.painter.density, 20 * app.painter.density);
    canvas.toBlob(blob => save(`${this.name}.png`, blob, "image/png"));
  }
}

// The ground: water, land and the lines of the axes.

import {degreeText, roundStep, turned} from "./plane.js";

const LAND = 0, LAKE = 1;

// A ring with its box, which decides whether it is drawn at all.
const boxed = ring => {
  let [x1, y1, x2, y2] = [Infinity, Infinity, -Infinity, -Infinity];
  for (let at = 0; at < ring.places.length; at += 2) {
    x1 = Math.min(x1, ring.places[at]);
    x2 = Math.max(x2, ring.places[at]);
    y1 = Math.min(y1, ring.places[at + 1]);
    y2 = Math.max(y2, ring.places[at + 1]);
  }
  return {...ring, box: [x1, y1, x2, y2]};
};

export class Base {
  constructor(canvas, view) {
    this.canvas = canvas;
    this.context = canvas.getContext("2d", {alpha: false});
    this.view = view;
    this.rings = [];
    this.unit = "degrees";
    this.labels = [];
  }

  set coast(rings) {
    this.rings = rings.map(boxed).sort((one, other) => one.kind - other.kind);
    // Where shores stand apart, polygons are cut along lines that are none.
    this.hasShores = rings.some(({kind}) => kind > LAKE);
  }

  size(wide, high, density) {
    this.density = density;
    this.canvas.width = Math.round(wide * density);
    this.canvas.height = Math.round(high * density);
  }

  draw(theme) {
    const {context, view, density} = this;
    context.setTransform(density, 0, 0, density, 0, 0);
    context.fillStyle = theme.water;
    context.fillRect(0, 0, view.wide, view.high);
    this.drawCoast(theme);
    this.labels = this.axes();
    context.strokeStyle = theme.line;
    context.lineWidth = 1;
    context.beginPath();
    for (const {isX, at} of this.labels) {
      context.moveTo(isX ? at : 0, isX ? 0 : at);
      context.lineTo(isX ? at : view.wide, isX ? view.high : at);
    }
    context.stroke();
  }

  drawCoast(theme) {
    const {context, view} = this, [x1, y1, x2, y2] = view.rect(0.02);
    context.lineWidth = 1;
    context.strokeStyle = theme.shore;
    for (const {kind, places, box} of this.rings) {
      if (box[0] > x2 || box[2] < x1 || box[1] > y2 || box[3] < y1) continue;
      context.beginPath();
      this.trace(places, kind <= LAKE);
      if (kind <= LAKE) {
        context.fillStyle = kind === LAND ? theme.land : theme.lake;
        context.fill();
        if (this.hasShores) continue;
      }
      context.stroke();
    }
  }

  // A ring as a line, without the places that are nearer than a pixel to the one before.
  trace(places, isClosed) {
    const {context, view} = this, {across, down} = view;
    const dx = view.wide / 2 - view.x * across, dy = view.high / 2 + view.y * down;
    let lastX = places[0] * across + dx, lastY = dy - places[1] * down;
    context.moveTo(lastX, lastY);
    for (let at = 2; at < places.length; at += 2) {
      const x = places[at] * across + dx, y = dy - places[at + 1] * down;
      if (Math.abs(x - lastX) < 1 && Math.abs(y - lastY) < 1) continue;
      context.lineTo(x, y);
      lastX = x;
      lastY = y;
    }
    if (isClosed) context.closePath();
  }

  // The lines of both axes: where each is, and what it says. In degrees, or in kilometres or cells of the plane.
  axes() {
    const {view} = this, {plane} = view, inDegrees = this.unit === "degrees" && plane.hasDegrees, found = [];
    for (const isX of [true, false]) {
      const pixels = isX ? view.across : view.down, length = isX ? view.wide : view.high, middle = isX ? view.x : view.y;
      const size = this.sizeOf(isX, inDegrees);
      const step = roundStep(length / pixels * size, Math.max(2, Math.floor(length / 110)));
      const low = (middle - length / 2 / pixels) * size, high = (middle + length / 2 / pixels) * size;
      for (let nth = Math.ceil(low / step); nth * step <= high && found.length < 100; nth++) {
        const value = nth * step, at = isX ? view.px(value / size) : view.py(value / size);
        found.push({isX, at, text: inDegrees ? this.degrees(value, step, isX) : this.length(value, step)});
      }
    }
    return found;
  }

  // How many units of an axis a cell has.
  sizeOf(isX, inDegrees) {
    const {plane} = this.view;
    if (inDegrees) return 1 / (isX ? plane.linear.east : plane.linear.north);
    return plane.hasDegrees ? (isX ? plane.metresEast(this.view.y) : plane.metresNorth()) : 1;
  }

  degrees(value, step, isX) {
    const digits = Math.max(0, -Math.floor(Math.log10(step) + 1e-9));
    return degreeText(isX ? turned(value) : value, digits, isX ? "E" : "N", isX ? "W" : "S");
  }

  length(value, step) {
    if (!this.view.plane.hasDegrees) return String(Math.round(value));
    return step >= 1000 ? `${+(value / 1000).toFixed(3)} km` : `${Math.round(value)} m`;
  }
}

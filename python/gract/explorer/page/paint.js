// Draws marks and trails as pixels: thousands of them in a few milliseconds, without a GPU.

import {pixel} from "./theme.js";

const SHADES = 8;
// Marks are smaller where there are many.
const RADII = [[150, 5.5], [1500, 4], [Infinity, 2.8]];

// A line within a frame of pixels, from its first end to its second (after Liang and Barsky); null where it is outside.
const clipped = (x1, y1, x2, y2, wide, high) => {
  let from = 0, to = 1;
  const dx = x2 - x1, dy = y2 - y1;
  for (const [far, near] of [[-dx, x1], [dx, wide - x1], [-dy, y1], [dy, high - y1]]) {
    if (far === 0) {
      if (near < 0) return null;
    } else if (far < 0) from = Math.max(from, near / far);
    else to = Math.min(to, near / far);
  }
  return from > to ? null : [x1 + from * dx, y1 + from * dy, x1 + to * dx, y1 + to * dy];
};

export class Painter {
  constructor(canvas, store) {
    this.canvas = canvas;
    this.context = canvas.getContext("2d");
    this.objects = store.objects;
    this.stamp = 0;
    this.seen = new Int32Array(0);
    this.lately = [];
    this.inView = [];
    this.sprites = new Map();
  }

  size(wide, high, density) {
    this.density = density;
    this.wide = this.canvas.width = Math.max(1, Math.round(wide * density));
    this.high = this.canvas.height = Math.max(1, Math.round(high * density));
    this.image = this.context.createImageData(this.wide, this.high);
    this.pixels = new Uint32Array(this.image.data.buffer);
    // They know how far one row of pixels is from the next.
    this.sprites.clear();
  }

  colour(theme) {
    this.theme = theme;
    this.trails = Array.from({length: SHADES}, (_, nth) => theme.objects.map(colour => pixel(colour, 215 - 20 * nth)));
    this.sprites.clear();
  }

  // Where each object's mark is, and where its trail has come to, by ids.
  room() {
    if (this.seen.length >= this.objects.count) return;
    const size = 2 * this.objects.count;
    this.seen = new Int32Array(size);
    for (const name of ["markX", "markY", "endX", "endY"]) this[name] = new Float32Array(size);
  }

  // Draws a slice, and behind it those before it, the newest first; `paths` has by id those trails that are known row by row.
  draw(view, slice, before, paths) {
    this.room();
    this.stamp++;
    this.lately.length = this.inView.length = 0;
    this.pixels.fill(0);
    this.scale(view);
    if (slice) this.place(slice);
    before.forEach((earlier, nth) => this.trail(earlier, this.trails[Math.min(nth, SHADES - 1)], paths));
    for (const path of paths.values()) this.path(path);
    this.marks(slice);
    this.context.putImageData(this.image, 0, 0);
  }

  // Pixels are cells times these and plus these, for the middle of a cell.
  scale(view) {
    const {density} = this;
    this.ax = view.across * density;
    this.dx = (view.wide / 2 - view.x * view.across) * density + this.ax / 2;
    this.ay = -view.down * density;
    this.dy = (view.high / 2 + view.y * view.down) * density + this.ay / 2;
    this.most = view.plane.wraps * this.ax / 2;
  }

  place({ids, x, y, count}) {
    const {seen, markX, markY, endX, endY, stamp, ax, ay, dx, dy} = this;
    for (let nth = 0; nth < count; nth++) {
      const id = ids[nth];
      seen[id] = stamp;
      markX[id] = endX[id] = x[nth] * ax + dx;
      markY[id] = endY[id] = y[nth] * ay + dy;
    }
  }

  // Each object's trail goes on to where it was in an earlier slice. Who is in none that is newer was seen there last.
  trail({ids, x, y, count}, shades, paths) {
    const {seen, markX, markY, endX, endY, stamp, ax, ay, dx, dy, most, objects: {colours}} = this;
    for (let nth = 0; nth < count; nth++) {
      const id = ids[nth], toX = x[nth] * ax + dx, toY = y[nth] * ay + dy;
      if (seen[id] !== stamp) {
        seen[id] = stamp;
        this.lately.push(id);
        markX[id] = toX;
        markY[id] = toY;
      } else if (Math.abs(endX[id] - toX) < most && !paths.has(id)) {
        this.line(endX[id], endY[id], toX, toY, shades[colours[id]]);
      }
      endX[id] = toX;
      endY[id] = toY;
    }
  }

  path({id, x, y, count}) {
    const {ax, ay, dx, dy, most} = this, colour = this.objects.colours[id];
    for (let nth = 1; nth < count; nth++) {
      if (x[nth] === x[nth - 1] && y[nth] === y[nth - 1] || Math.abs(x[nth] - x[nth - 1]) * ax >= most) continue;
      const shade = this.trails[SHADES - 1 - Math.floor(nth * SHADES / count)][colour];
      this.line(x[nth - 1] * ax + dx, y[nth - 1] * ay + dy, x[nth] * ax + dx, y[nth] * ay + dy, shade);
    }
  }

  line(x1, y1, x2, y2, shade) {
    const {wide, high, pixels} = this;
    if (x1 === x2 && y1 === y2) return;
    if (Math.min(x1, x2) < 0 || Math.min(y1, y2) < 0 || Math.max(x1, x2) >= wide || Math.max(y1, y2) >= high) {
      const found = clipped(x1, y1, x2, y2, wide - 1, high - 1);
      if (!found) return;
      [x1, y1, x2, y2] = found;
    }
    const steps = Math.ceil(Math.max(Math.abs(x2 - x1), Math.abs(y2 - y1)));
    // Whoever lies still has no trail.
    if (steps === 0) return;
    const dx = (x2 - x1) / steps, dy = (y2 - y1) / steps;
    for (let nth = 0; nth <= steps; nth++, x1 += dx, y1 += dy) pixels[(y1 | 0) * wide + (x1 | 0)] = shade;
  }

  // Marks over all trails: pale rings for those that were seen before only. Keeps which are in view.
  marks(slice) {
    const {ids, count} = slice || {ids: [], count: 0}, {inView, lately} = this;
    const pale = lately.filter(id => this.isInView(id));
    for (let nth = 0; nth < count; nth++) if (this.isInView(ids[nth])) inView.push(ids[nth]);
    this.radius = RADII.find(([most]) => inView.length <= most)[1] * this.density;
    this.lately = pale;
    for (const id of pale) this.stampMark(id, true);
    for (const id of inView) this.stampMark(id, false);
  }

  isInView(id) {
    const x = this.markX[id], y = this.markY[id];
    return x >= 0 && y >= 0 && x < this.wide && y < this.high;
  }

  stampMark(id, isPale) {
    const {pixels, wide, high} = this, {half, colours, columns, rows, steps} = this.sprite(this.objects.colours[id], isPale);
    const x = Math.round(this.markX[id]), y = Math.round(this.markY[id]), at = y * wide + x;
    if (x >= half && y >= half && x < wide - half && y < high - half) {
      for (let nth = 0; nth < colours.length; nth++) pixels[at + steps[nth]] = colours[nth];
      return;
    }
    for (let nth = 0; nth < colours.length; nth++) {
      const toX = x + columns[nth], toY = y + rows[nth];
      if (toX >= 0 && toY >= 0 && toX < wide && toY < high) pixels[at + steps[nth]] = colours[nth];
    }
  }

  // A mark as pixels: a disc with an edge, or a ring.
  sprite(colour, isPale) {
    const key = colour + (isPale ? 100 : 0) + 1000 * Math.round(10 * this.radius);
    if (!this.sprites.has(key)) this.sprites.set(key, this.spriteOf(colour, isPale));
    return this.sprites.get(key);
  }

  spriteOf(colour, isPale) {
    const {radius, density, wide} = this, half = Math.ceil(radius), ink = this.theme.objects[colour];
    const found = {half, colours: [], columns: [], rows: [], steps: []};
    for (let row = -half; row <= half; row++) {
      for (let column = -half; column <= half; column++) {
        const far = Math.hypot(row, column), cover = Math.max(0, Math.min(1, radius + 0.5 - far)), isRim = far > radius - 1.2 * density;
        if (cover === 0 || (isPale && !isRim)) continue;
        found.colours.push(isPale ? pixel(ink, Math.round(150 * cover)) : pixel(isRim && radius > 3 ? this.theme.edge : ink, Math.round(255 * cover)));
        found.columns.push(column);
        found.rows.push(row);
        found.steps.push(row * wide + column);
      }
    }
    return found;
  }

  // The object whose mark is nearest to a place, up to so many pixels away; -1 where there is none.
  at(px, py, most) {
    let found = -1, least = (most * this.density) ** 2;
    for (const id of [...this.lately, ...this.inView]) {
      const far = (this.markX[id] - px * this.density) ** 2 + (this.markY[id] - py * this.density) ** 2;
      if (far <= least) [found, least] = [id, far];
    }
    return found;
  }

  // Where an object's mark is, in pixels of the page; null where it has none in this frame.
  mark(id) {
    return this.seen[id] === this.stamp ? [this.markX[id] / this.density, this.markY[id] / this.density] : null;
  }
}

// What part of the plane is seen: the cell in the middle, and pixels for a cell.

const LEAST = 1e-10, MOST = 400;

export class View {
  constructor(plane) {
    this.plane = plane;
    this.x = this.y = 0;
    this.down = 1;
    this.ratio = 1;
    this.wide = this.high = 100;
  }

  get across() {
    return this.down * this.ratio;
  }

  size(wide, high) {
    this.wide = Math.max(1, wide);
    this.high = Math.max(1, high);
  }

  // Shows a box in cells, with room around. The ratio of a cell is that of its middle.
  fit([x1, y1, x2, y2]) {
    this.x = (x1 + x2 + 1) / 2;
    this.y = (y1 + y2 + 1) / 2;
    this.ratio = this.plane.ratio(this.y);
    const room = 0.92;
    const wide = Math.max(x2 - x1 + 1, 4), high = Math.max(y2 - y1 + 1, 4);
    this.scale(Math.min(room * this.high / high, room * this.wide / (wide * this.ratio)));
  }

  scale(down) {
    this.down = Math.min(MOST, Math.max(LEAST, down));
  }

  px(x) {
    return this.wide / 2 + (x - this.x) * this.across;
  }

  py(y) {
    return this.high / 2 - (y - this.y) * this.down;
  }

  cx(px) {
    return this.x + (px - this.wide / 2) / this.across;
  }

  cy(py) {
    return this.y - (py - this.high / 2) / this.down;
  }

  pan(dx, dy) {
    this.x -= dx / this.across;
    this.y += dy / this.down;
  }

  // Zooms so that what is under a pixel stays there.
  zoom(factor, px = this.wide / 2, py = this.high / 2) {
    const x = this.cx(px), y = this.cy(py);
    this.scale(this.down * factor);
    this.x = x - (px - this.wide / 2) / this.across;
    this.y = y + (py - this.high / 2) / this.down;
  }

  // The cells that are seen, with a part of the view's size around them.
  rect(around = 0) {
    const wide = this.wide / this.across, high = this.high / this.down;
    return [this.x - wide * (0.5 + around), this.y - high * (0.5 + around), this.x + wide * (0.5 + around), this.y + high * (0.5 + around)]
      .map(Math.floor);
  }

  sees(px, py) {
    return px >= 0 && py >= 0 && px < this.wide && py < this.high;
  }

  // What a link keeps.
  get state() {
    return [this.x, this.y, this.down].map(number => +number.toPrecision(8)).join(",");
  }

  set state(text) {
    const [x, y, down] = text.split(",").map(Number);
    if (![x, y, down].every(Number.isFinite) || down <= 0) return;
    this.x = x;
    this.y = y;
    this.ratio = this.plane.ratio(y);
    this.scale(down);
  }
}

// What lies over the marks: texts of the axes, the scale, names, the answer, what is drawn by hand, and the cross of the keyboard.

import {roundStep} from "./plane.js";

// Names are drawn where no more objects than these are in view.
const MOST_NAMES = 150, MOST_OUTLINES = 2;
const FONT = "12px system-ui, sans-serif";

// A text without characters that would turn or break a line.
export const plain = text => String(text).replace(/[\u0000-\u001f\u007f-\u009f\u200e\u200f\u2028-\u202e\u2066-\u2069]/g, "\ufffd");

export class Over {
  constructor(canvas, app) {
    this.canvas = canvas;
    this.context = canvas.getContext("2d");
    this.app = app;
  }

  size(wide, high, density) {
    this.density = density;
    this.canvas.width = Math.round(wide * density);
    this.canvas.height = Math.round(high * density);
  }

  draw(theme) {
    const {context, density, app} = this;
    context.setTransform(density, 0, 0, density, 0, 0);
    context.clearRect(0, 0, app.view.wide, app.view.high);
    context.font = FONT;
    context.lineJoin = "round";
    this.theme = theme;
    this.texts();
    this.scale();
    this.answer();
    this.shape();
    this.choices();
    this.names();
    this.cross();
  }

  text(words, x, y, colour = this.theme.text) {
    const {context} = this;
    context.strokeStyle = this.theme.halo;
    context.lineWidth = 3;
    context.strokeText(words, x, y);
    context.fillStyle = colour;
    context.fillText(words, x, y);
  }

  texts() {
    for (const {isX, at, text} of this.app.base.labels) {
      if (isX ? at < 60 : at > this.app.view.high - 40) continue;
      this.text(text, isX ? at + 3 : 4, isX ? this.app.view.high - 6 : at - 4);
    }
  }

  // A bar that is as long on the ground as it says, in the middle of the view.
  scale() {
    const {context} = this, {view} = this.app, {plane} = view;
    const metre = view.across / plane.metresEast(view.y), length = roundStep(160 / metre, 1), wide = length * metre;
    const x = view.wide - wide - 16, y = view.high - 30;
    context.strokeStyle = this.theme.text;
    context.lineWidth = 2;
    context.beginPath();
    context.moveTo(x, y - 5);
    context.lineTo(x, y);
    context.lineTo(x + wide, y);
    context.lineTo(x + wide, y - 5);
    context.stroke();
    this.text(plane.distanceText(length), x + 4, y - 5);
  }

  // The last answer: first rows and stays as rings, paths as lines, and the region that was asked, dashed.
  answer() {
    const {context} = this, {answer, view} = this.app;
    if (!answer) return;
    context.strokeStyle = this.theme.hand;
    context.lineWidth = 1.5;
    context.fillStyle = `${this.theme.hand}30`;
    context.setLineDash([6, 4]);
    for (const shape of answer.shapes) this.outline(shape, answer.shapes.length > MOST_OUTLINES);
    context.setLineDash([]);
    for (const line of answer.lines) this.polyline(line);
    context.lineWidth = 2;
    for (const [x, y] of answer.points) {
      const px = view.px(x), py = view.py(y);
      if (!view.sees(px, py)) continue;
      context.beginPath();
      context.arc(px, py, 6, 0, 7);
      context.stroke();
    }
  }

  // A rectangle of cells, or a disc. Of many, as a polygon is asked, each is filled instead.
  outline(shape, isFilled) {
    const {context} = this, {view} = this.app;
    context.beginPath();
    if (shape.length === 4) {
      const [x1, y1, x2, y2] = shape;
      context.rect(view.px(x1), view.py(y2 + 1), (x2 + 1 - x1) * view.across, (y2 + 1 - y1) * view.down);
    } else {
      const [x, y, radius] = shape;
      context.ellipse(view.px(x + 0.5), view.py(y + 0.5), Math.max(1, radius * view.across), Math.max(1, radius * view.down), 0, 0, 7);
    }
    if (isFilled) context.fill();
    else context.stroke();
  }

  // A path; where rows are missing, or it goes round the edge of the plane, its line is broken or dotted.
  polyline(line) {
    const {context} = this, {view} = this.app, most = view.plane.wraps / 2;
    context.beginPath();
    line.forEach(([x, y, goesOn], nth) => {
      const before = line[nth - 1];
      if (nth && goesOn && Math.abs(x - before[0]) < most) context.lineTo(view.px(x), view.py(y));
      else {
        context.moveTo(view.px(x), view.py(y));
        context.lineTo(view.px(x) + 0.5, view.py(y));
      }
    });
    context.stroke();
  }

  // What is drawn by hand.
  shape() {
    const {context} = this, {view, drawing} = this.app, outline = drawing.outline();
    if (!outline) return;
    context.strokeStyle = this.theme.hand;
    context.fillStyle = `${this.theme.hand}22`;
    context.lineWidth = 2;
    context.beginPath();
    if (outline.kind === "circle") {
      const [x, y] = outline.middle;
      context.ellipse(view.px(x), view.py(y), outline.across * view.across, outline.down * view.down, 0, 0, 7);
    } else {
      outline.corners.forEach(([x, y], nth) => context[nth ? "lineTo" : "moveTo"](view.px(x), view.py(y)));
      if (outline.isClosed) context.closePath();
      for (const [x, y] of outline.corners) context.rect(view.px(x) - 2, view.py(y) - 2, 4, 4);
    }
    if (outline.isClosed) context.fill();
    context.stroke();
  }

  // Rings round the objects that are chosen, the first whole and the second dashed.
  choices() {
    const {context} = this, {chosen, painter} = this.app;
    chosen.forEach((id, nth) => {
      const mark = painter.mark(id);
      if (!mark) return;
      context.strokeStyle = this.theme.choice;
      context.lineWidth = 2;
      context.setLineDash(nth ? [4, 3] : []);
      context.beginPath();
      context.arc(mark[0], mark[1], 10, 0, 7);
      context.stroke();
      context.setLineDash([]);
      this.text(this.app.called(id), mark[0] + 13, mark[1] - 8);
    });
  }

  // Names beside marks, as far as they find room.
  names() {
    const {app} = this, {painter, chosen} = app;
    if (!app.hasNames || painter.inView.length > MOST_NAMES) return;
    const taken = [];
    for (const id of painter.inView) {
      const [px, py] = painter.mark(id), words = app.called(id);
      const box = [px + 7, py - 16, px + 12 + this.context.measureText(words).width, py];
      if (chosen.includes(id) || taken.some(other => box[0] < other[2] && other[0] < box[2] && box[1] < other[3] && other[1] < box[3])) continue;
      taken.push(box);
      this.text(words, px + 8, py - 4);
    }
  }

  cross() {
    const {context} = this, {cursor} = this.app;
    if (!cursor.isShown) return;
    context.strokeStyle = this.theme.choice;
    context.lineWidth = 1;
    context.beginPath();
    for (const [dx, dy] of [[1, 0], [-1, 0], [0, 1], [0, -1]]) {
      context.moveTo(cursor.x + 4 * dx, cursor.y + 4 * dy);
      context.lineTo(cursor.x + 14 * dx, cursor.y + 14 * dy);
    }
    context.stroke();
  }
}

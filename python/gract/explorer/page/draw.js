// Regions that are drawn by hand: a rectangle, a circle or a polygon, in cells; and as texts, so that they can be typed too.

const NEAR = 9, DOUBLE = 500;
const MOST_CORNERS = 500;
const clamp = (value, least, most) => Math.min(most, Math.max(least, value));

export class Drawing {
  constructor(view, changed) {
    this.view = view;
    this.changed = changed;
    this.tool = "look";
    this.points = [];
    this.isDone = false;
  }

  // Takes another tool. What was drawn stays until something else is.
  take(tool) {
    this.tool = tool;
    if (!this.isDone) this.clear();
  }

  get isDrawing() {
    return ["rect", "circle", "polygon"].includes(this.tool);
  }

  clear() {
    this.points = [];
    this.kind = this.typed = null;
    this.isDone = false;
  }

  // A press, or the Enter key, at a place in cells.
  press(x, y, isKey = false) {
    // The second click of the two that ended a polygon begins none.
    if (this.isDone && performance.now() - this.ended < DOUBLE) return;
    if (this.isDone || this.kind !== this.tool) this.clear();
    this.kind = this.tool;
    if (this.kind === "polygon") this.corner(x, y, isKey);
    else if (this.points.length < 2) this.points = [[x, y], [x, y]];
    else this.end(x, y);
  }

  corner(x, y, isKey) {
    const isNear = ([cx, cy]) => Math.hypot((cx - x) * this.view.across, (cy - y) * this.view.down) < NEAR;
    const corners = this.points.slice(0, Math.max(0, this.points.length - 1));
    if (corners.length >= 3 && (isNear(corners[0]) || (isKey && isNear(corners[corners.length - 1])))) this.close();
    else if (corners.length < MOST_CORNERS && !(corners.length && isNear(corners[corners.length - 1]))) this.points = [...corners, [x, y], [x, y]];
  }

  // The pointer has moved; the last point follows it.
  move(x, y) {
    if (this.isDone || this.points.length < 2) return false;
    this.points[this.points.length - 1] = [x, y];
    return true;
  }

  // The press has ended after a drag.
  end(x, y) {
    if (this.isDone || this.kind === "polygon" || this.points.length < 2) return;
    this.points[1] = [x, y];
    this.isDone = true;
    this.changed();
  }

  // A polygon ends: its last point only followed the pointer.
  close() {
    if (this.kind !== "polygon" || this.isDone || this.points.length < 4) return;
    this.points.pop();
    this.isDone = true;
    this.ended = performance.now();
    this.changed();
  }

  removeCorner() {
    if (this.kind === "polygon" && !this.isDone && this.points.length > 2) this.points.splice(-2, 1);
  }

  // What is drawn on the map.
  outline() {
    if (this.points.length < 2) return null;
    const [[x1, y1], [x2, y2]] = this.points;
    if (this.kind === "circle") {
      const {plane} = this.view, metres = this.metres();
      return {kind: "circle", middle: this.points[0], across: metres / plane.metresEast(y1), down: metres / plane.metresNorth(), isClosed: true};
    }
    if (this.kind === "rect") return {kind: "rect", corners: [[x1, y1], [x2, y1], [x2, y2], [x1, y2]], isClosed: true};
    return {kind: "polygon", corners: this.points, isClosed: this.isDone};
  }

  metres() {
    return this.view.plane.distance(this.points[0], this.points[1]);
  }

  // The region as the server takes it: in degrees where there are any, and else in cells.
  shape() {
    if (!this.isDone) return null;
    if (this.typed) return this.typed;
    const [[x1, y1], [x2, y2]] = this.points, {plane} = this.view;
    if (this.kind === "polygon") return {polygon: this.points.map(([x, y]) => plane.hasDegrees ? this.degrees(x, y) : [Math.floor(x), Math.floor(y)])};
    if (!plane.hasDegrees) {
      const radius = Math.max(0, Math.round(Math.hypot(x2 - x1, y2 - y1)));
      if (this.kind === "circle") return {disc: [Math.floor(x1), Math.floor(y1), radius]};
      return {rect: [Math.min(x1, x2), Math.min(y1, y2), Math.max(x1, x2), Math.max(y1, y2)].map(Math.floor)};
    }
    if (this.kind === "circle") return {around: this.degrees(x1, y1), metres: Math.max(1, Math.round(this.metres()))};
    const [west, south] = this.degrees(Math.min(x1, x2), Math.min(y1, y2)), [east, north] = this.degrees(Math.max(x1, x2), Math.max(y1, y2));
    return {box: [west, south, east, north]};
  }

  // A place in degrees, with as many digits as a pixel has, within the plane.
  degrees(x, y) {
    const {plane, across} = this.view, digits = clamp(Math.ceil(Math.log10(across * plane.linear.east)) + 1, 0, 6);
    const longitude = clamp(plane.longitude(x), plane.west, plane.west + 360 - 1e-6), latitude = clamp(plane.latitude(y), -90, 90);
    return [+longitude.toFixed(digits), +latitude.toFixed(digits)];
  }

  // The region as a text, and back.
  get text() {
    const shape = this.shape();
    if (!shape) return "";
    if (shape.polygon) return `polygon ${shape.polygon.map(corner => corner.join(" ")).join(", ")}`;
    if (shape.around) return `around ${shape.around.join(",")} metres ${shape.metres}`;
    const kind = ["box", "rect", "disc"].find(name => shape[name]);
    return `${kind} ${shape[kind].join(",")}`;
  }

  // Takes a text; false where it is no region.
  read(text) {
    const shape = shapeOf(text);
    if (!shape) return false;
    const {plane} = this.view, place = ([x, y]) => plane.hasDegrees ? [plane.x(x), plane.y(y)] : [x, y];
    if (!plane.hasDegrees && (shape.box || shape.around)) return false;
    this.clear();
    if (shape.polygon) [this.kind, this.points] = ["polygon", shape.polygon.map(place)];
    else if (shape.around) {
      const middle = place(shape.around);
      [this.kind, this.points] = ["circle", [middle, [middle[0] + shape.metres / plane.metresEast(middle[1]), middle[1]]]];
    } else if (shape.disc) {
      const [x, y, radius] = shape.disc;
      [this.kind, this.points] = ["circle", [[x + 0.5, y + 0.5], [x + 0.5 + radius, y + 0.5]]];
    } else if (shape.rect) {
      const [x1, y1, x2, y2] = shape.rect;
      [this.kind, this.points] = ["rect", [[x1, y1], [x2 + 1, y2 + 1]]];
    } else [this.kind, this.points] = ["rect", [place(shape.box.slice(0, 2)), place(shape.box.slice(2))]];
    // It is asked as it is typed, and not as its picture is.
    this.typed = shape;
    this.isDone = true;
    return true;
  }
}

const numbersOf = text => text.split(/[\s,]+/).filter(Boolean).map(Number);

// A shape of a text: box W,S,E,N; around X,Y metres M; rect X1,Y1,X2,Y2; disc X,Y,R; polygon X Y, X Y, X Y. Null where it is none.
export const shapeOf = text => {
  const [, kind, rest] = /^\s*(box|around|rect|disc|polygon)\s+(.*)$/s.exec(text) || [];
  if (!kind) return null;
  const numbers = numbersOf(kind === "around" ? rest.replace("metres", " ") : rest);
  if (!numbers.length || !numbers.every(Number.isFinite)) return null;
  const counts = {box: 4, around: 3, rect: 4, disc: 3};
  if (kind === "polygon") {
    if (numbers.length < 6 || numbers.length % 2 || numbers.length > 2 * MOST_CORNERS) return null;
    return {polygon: Array.from({length: numbers.length / 2}, (_, nth) => numbers.slice(2 * nth, 2 * nth + 2))};
  }
  if (numbers.length !== counts[kind]) return null;
  return kind === "around" ? {around: numbers.slice(0, 2), metres: numbers[2]} : {[kind]: numbers};
};

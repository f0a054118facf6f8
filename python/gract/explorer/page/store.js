// Slices that were asked, and paths, as the arrays that they came as: see binary.py for their layout.

const MOST_BYTES = 64 << 20;
const COLOURS = 6;

// Objects by small numbers from 0, in the order in which they were first seen, so that a frame needs no look-up.
export class Objects {
  constructor() {
    this.ids = new Map();
    this.numbers = new Float64Array(1024);
    this.colours = new Uint8Array(1024);
    this.count = 0;
  }

  id(number) {
    const known = this.ids.get(number);
    if (known !== undefined) return known;
    if (this.count === this.numbers.length) this.grow();
    const id = this.count++;
    this.ids.set(number, id);
    this.numbers[id] = number;
    this.colours[id] = (Math.imul(number, 2654435761) >>> 16) % COLOURS;
    return id;
  }

  grow() {
    const numbers = new Float64Array(2 * this.numbers.length), colours = new Uint8Array(2 * this.numbers.length);
    numbers.set(this.numbers);
    colours.set(this.colours);
    this.numbers = numbers;
    this.colours = colours;
  }
}

class Reader {
  constructor(buffer) {
    this.buffer = buffer;
    this.data = new DataView(buffer);
    this.at = 0;
  }

  get isOver() {
    return this.at >= this.buffer.byteLength;
  }

  f64() {
    this.at += 8;
    return this.data.getFloat64(this.at - 8, true);
  }

  u32() {
    this.at += 4;
    return this.data.getUint32(this.at - 4, true);
  }

  array(Kind, count) {
    const found = new Kind(this.buffer, this.at, count);
    this.at += Math.ceil(found.byteLength / 8) * 8;
    return found;
  }

  places(width, count) {
    const Kind = width === 4 ? Int32Array : Float64Array;
    return {x: this.array(Kind, count), y: this.array(Kind, count)};
  }
}

export const slicesIn = (buffer, objects) => {
  const reader = new Reader(buffer), found = [];
  while (!reader.isOver) {
    const instant = reader.f64(), count = reader.u32(), width = reader.u32();
    // Copies, so that each can be let go without the others of its response. The numbers become ids.
    const ids = reader.array(Uint32Array, count).map(number => objects.id(number));
    const {x, y} = reader.places(width, count);
    found.push({instant, count, ids, x: x.slice(), y: y.slice(), bytes: 24 + 4 * count + 2 * width * count});
  }
  return found;
};

export const pathsIn = (buffer, objects) => {
  const reader = new Reader(buffer), found = [];
  while (!reader.isOver) {
    const first = reader.f64(), count = reader.u32(), width = reader.u32(), number = reader.u32();
    reader.u32();
    found.push({id: objects.id(number), number, first, count, after: reader.array(Uint32Array, count), ...reader.places(width, count)});
  }
  return found;
};

// All objects with their first rows.
export const hitsIn = buffer => {
  const reader = new Reader(buffer);
  const first = reader.f64(), count = reader.u32(), width = reader.u32();
  return {first, count, numbers: reader.array(Uint32Array, count), after: reader.array(Uint32Array, count), ...reader.places(width, count)};
};

export const ringsIn = buffer => {
  const reader = new Reader(buffer), found = [];
  while (!reader.isOver) {
    const kind = reader.u32(), count = reader.u32();
    found.push({kind, places: reader.array(Float32Array, count)});
  }
  return found;
};

const holds = (outer, inner) => outer[0] <= inner[0] && outer[1] <= inner[1] && outer[2] >= inner[2] && outer[3] >= inner[3];

// Slices by instant. Of more than 64 MB those are let go that were looked at longest ago.
export class Store {
  constructor() {
    this.objects = new Objects();
    this.slices = new Map();
    this.bytes = 0;
  }

  // The slice of an instant, where it has what is in view.
  get(instant, rect = null) {
    const found = this.slices.get(instant);
    if (!found || (found.rect && !(rect && holds(found.rect, rect)))) return undefined;
    this.slices.delete(instant);
    this.slices.set(instant, found);
    return found;
  }

  add(slice, rect) {
    const before = this.slices.get(slice.instant);
    if (before) this.drop(before);
    slice.rect = rect;
    this.slices.set(slice.instant, slice);
    this.bytes += slice.bytes;
    for (const oldest of this.slices.values()) {
      if (this.bytes <= MOST_BYTES) break;
      this.drop(oldest);
    }
  }

  drop(slice) {
    this.slices.delete(slice.instant);
    this.bytes -= slice.bytes;
  }

  clear() {
    this.slices.clear();
    this.bytes = 0;
  }
}

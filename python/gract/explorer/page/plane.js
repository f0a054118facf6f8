// Cells as degrees and metres. x and y are in cells, with fractions: the middle of cell (3, 4) is (3.5, 4.5).

const METRES_A_DEGREE = 6371008.8 * Math.PI / 180;
const radians = degrees => degrees * Math.PI / 180;

export class Plane {
  constructor(facts) {
    this.linear = facts.plane;
    this.west = facts.west;
    this.units = facts.cell;
    // As many digits of degrees as tell cells apart.
    this.digits = this.linear ? Math.min(6, Math.max(0, Math.ceil(Math.log10(this.linear.north) + 0.3))) : 0;
  }

  get hasDegrees() {
    return this.linear !== null;
  }

  longitude(x) {
    return x / this.linear.east;
  }

  latitude(y) {
    return y / this.linear.north;
  }

  x(longitude) {
    return longitude * this.linear.east;
  }

  y(latitude) {
    return latitude * this.linear.north;
  }

  // How many cells lie once round the globe; none where there are no degrees.
  get wraps() {
    return this.linear ? 360 * this.linear.east : Infinity;
  }

  // How much wider than high a cell is on the ground.
  ratio(y) {
    if (!this.linear) return 1;
    const latitude = Math.min(80, Math.abs(this.latitude(y)));
    return Math.cos(radians(latitude)) * this.linear.north / this.linear.east;
  }

  // Metres on the ground of a cell's width at a place; without degrees units of the rows.
  metresEast(y) {
    return this.linear ? METRES_A_DEGREE * Math.cos(radians(this.latitude(y))) / this.linear.east : this.units;
  }

  metresNorth() {
    return this.linear ? METRES_A_DEGREE / this.linear.north : this.units;
  }

  // Metres between two places that are not far from each other.
  distance(one, other) {
    const east = (one[0] - other[0]) * this.metresEast((one[1] + other[1]) / 2);
    return Math.hypot(east, (one[1] - other[1]) * this.metresNorth());
  }

  distanceText(metres) {
    if (!this.linear) return `${Math.round(metres)} units`;
    if (metres >= 1000) return `${metres >= 100000 ? Math.round(metres / 1000) : +(metres / 1000).toPrecision(3)} km`;
    return `${Math.round(metres)} m`;
  }

  placeText(x, y) {
    if (!this.linear) return `x ${Math.floor(x)}, y ${Math.floor(y)}`;
    return `${degreeText(this.latitude(y), this.digits, "N", "S")} ${degreeText(turned(this.longitude(x)), this.digits, "E", "W")}`;
  }
}

export const turned = longitude => longitude - 360 * Math.floor((longitude + 180) / 360);

export const degreeText = (value, digits, plus, minus) => {
  const shown = Math.abs(value).toFixed(digits);
  return `${shown}°${+shown === 0 ? "" : value > 0 ? plus : minus}`;
};

// The least of 1, 2, 5, 10, .. that divides a length into at most so many parts.
export const roundStep = (length, most) => {
  const power = 10 ** Math.floor(Math.log10(length / most));
  return power * ([1, 2, 5].find(part => power * part * most >= length * (1 - 1e-9)) || 10);
};

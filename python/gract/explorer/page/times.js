// Instants as times and back, in UTC. Without a grid an instant is a number and nothing else.

const LENGTHS = {s: 1, m: 60, h: 3600, d: 86400};

export class Times {
  constructor(facts) {
    this.first = facts.first;
    this.last = facts.last;
    this.seconds = facts.unit === null ? null : facts.tick * facts.unit;
    this.epoch = facts.epoch;
  }

  // When an instant begins, as 2016-07-02 12:00, or its number where it has no date.
  text(instant) {
    if (this.seconds === null) return String(instant);
    const date = new Date((instant * this.seconds + this.epoch) * 1000);
    if (isNaN(date) || date.getUTCFullYear() < 1 || date.getUTCFullYear() > 9999) return String(instant);
    const text = date.toISOString();
    return `${text.slice(0, 10)} ${text.slice(11, text.slice(17, 19) === "00" ? 16 : 19)}`;
  }

  // The same with the zone, for people.
  said(instant) {
    return this.seconds === null ? `instant ${instant}` : `${this.text(instant)} UTC`;
  }

  // The instant of a text, rounded down; null where it is none.
  read(text) {
    const words = text.trim().replace(/ *(UTC|Z)$/, "");
    if (/^[+-]?\d{1,13}$/.test(words)) return +words;
    const found = /^(\d{4})-(\d\d)-(\d\d)(?:[T ](\d\d):(\d\d)(?::(\d\d))?)?$/.exec(words);
    if (!found || this.seconds === null) return null;
    const [year, month, day, hour, minute, second] = found.slice(1).map(word => +(word || 0));
    const date = new Date(0);
    date.setUTCFullYear(year, month - 1, day);
    if (date.getUTCMonth() !== month - 1 || hour > 23 || minute > 59 || second > 60) return null;
    return Math.floor((date.getTime() / 1000 + hour * 3600 + minute * 60 + second - this.epoch) / this.seconds);
  }

  // How many instants a length of time has, rounded up: `90 m`, `2 h`, `1 d`; a number alone is of instants. Null where it is none.
  length(text) {
    const found = /^(\d+(?:\.\d+)?) *(s|m|min|h|d|instants?)?$/.exec(text.trim());
    if (!found) return null;
    if (!found[2] || found[2].startsWith("instant")) return Math.ceil(+found[1]);
    return this.seconds === null ? null : Math.ceil(+found[1] * LENGTHS[found[2][0]] / this.seconds);
  }

  lengthText(instants) {
    if (this.seconds === null) return `${instants} instant${instants === 1 ? "" : "s"}`;
    const seconds = instants * this.seconds;
    const [unit, word] = seconds % 86400 === 0 ? [86400, "d"] : seconds % 3600 === 0 ? [3600, "h"] : seconds % 60 === 0 ? [60, "min"] : [1, "s"];
    return `${seconds / unit} ${word}`;
  }

  clamp(instant) {
    return Math.min(this.last, Math.max(this.first, Math.round(instant)));
  }
}

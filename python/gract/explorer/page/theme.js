// Colours, dark and light. Those of objects are Okabe and Ito's, which are told apart by colour-blind people; the two that would be too
// pale or too dark on the ground are others of theirs.

const LIGHT = {
  water: "#eaf1f6", land: "#f4efe4", lake: "#eaf1f6", shore: "#8c8672", line: "#cfd9e0", text: "#22303a", halo: "#ffffff", edge: "#ffffff",
  hand: "#8a1c5b", choice: "#000000", objects: ["#0072b2", "#d55e00", "#009e73", "#cc79a7", "#7a5200", "#56b4e9"],
};
const DARK = {
  water: "#10181f", land: "#232a2b", lake: "#10181f", shore: "#6f7c7c", line: "#27333c", text: "#e4ebf0", halo: "#10181f", edge: "#10181f",
  hand: "#ff9fd6", choice: "#ffffff", objects: ["#56b4e9", "#e69f00", "#2fc79b", "#cc79a7", "#f0e442", "#d55e00"],
};
const KEPT = "gract-theme";

// A colour as a pixel of a canvas, with an opacity from 0 to 255.
export const pixel = (colour, opacity = 255) => {
  const [red, green, blue] = [1, 3, 5].map(at => parseInt(colour.slice(at, at + 2), 16));
  return ((opacity << 24) | (blue << 16) | (green << 8) | red) >>> 0;
};

export class Theme {
  constructor(changed) {
    this.changed = changed;
    const system = matchMedia("(prefers-color-scheme: dark)");
    system.addEventListener("change", () => this.apply());
    this.system = system;
    this.apply();
  }

  get isDark() {
    const kept = sessionStorage.getItem(KEPT);
    return kept ? kept === "dark" : this.system.matches;
  }

  get colours() {
    return this.isDark ? DARK : LIGHT;
  }

  turn() {
    sessionStorage.setItem(KEPT, this.isDark ? "light" : "dark");
    this.apply();
  }

  apply() {
    document.documentElement.dataset.theme = this.isDark ? "dark" : "light";
    this.changed();
  }
}

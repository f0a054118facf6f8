// The map by the keyboard: a cross that the arrows move, and Enter for a click at it.

const STEP = 12, PAN = 80;
const MOVES = {ArrowLeft: [-1, 0], ArrowRight: [1, 0], ArrowUp: [0, -1], ArrowDown: [0, 1]};
const TOOLS = {l: "look", r: "rect", c: "circle", g: "polygon", n: "near"};

export const listen = app => {
  const {over: {canvas}, cursor} = app;
  canvas.addEventListener("focus", () => {
    cursor.isShown = canvas.matches(":focus-visible");
    if (cursor.x === null) [cursor.x, cursor.y] = [app.view.wide / 2, app.view.high / 2];
    app.touch("over");
  });
  canvas.addEventListener("blur", () => {
    cursor.isShown = false;
    app.touch("over");
  });
  canvas.addEventListener("keydown", event => {
    if (event.ctrlKey || event.altKey || event.metaKey) return;
    if (onMap(app, event)) {
      cursor.isShown = true;
      event.preventDefault();
      app.touch("over");
    }
  });
  // These work wherever no text is typed.
  document.addEventListener("keydown", event => {
    if (event.ctrlKey || event.altKey || event.metaKey || event.target.closest("input, textarea, select, button, summary, a")) return;
    if (anywhere(app, event.key)) event.preventDefault();
  });
};

const anywhere = (app, key) => {
  if (key === " ") app.player.turn();
  else if (key === ",") app.player.move(-1);
  else if (key === ".") app.player.move(1);
  else if (key === "/") document.getElementById("find-text").focus();
  else return false;
  return true;
};

const onMap = (app, event) => {
  const {cursor} = app, {key} = event;
  if (key in MOVES) moveBy(app, MOVES[key], event.shiftKey);
  else if (key === "Enter") app.press(cursor.x, cursor.y, event.shiftKey, true);
  else if (key === "+" || key === "=") app.zoom(1.5, cursor.x, cursor.y);
  else if (key === "-") app.zoom(1 / 1.5, cursor.x, cursor.y);
  else if (key === "0") app.showAll();
  else if (key === "Escape") app.escape();
  else if (key === "Backspace") app.drawing.removeCorner();
  else if (key.toLowerCase() in TOOLS) app.setTool(TOOLS[key.toLowerCase()]);
  else return false;
  return true;
};

// Moves the cross, or with Shift the map beneath it; at the edge the map goes on.
const moveBy = (app, [dx, dy], isPan) => {
  const {cursor, view} = app, x = cursor.x + dx * STEP, y = cursor.y + dy * STEP;
  if (isPan || !view.sees(x, y)) app.pan(-dx * PAN, -dy * PAN);
  else {
    cursor.x = x;
    cursor.y = y;
    app.pointed(x, y);
  }
};

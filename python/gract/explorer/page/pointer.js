// The mouse, or a finger: drags move the map or draw, clicks choose, the wheel zooms.

const STILL = 4;

export const listen = app => {
  const {over: {canvas}} = app;
  const held = {pointers: new Map(), isDrag: false};
  const at = event => {
    const box = canvas.getBoundingClientRect();
    return [event.clientX - box.left, event.clientY - box.top];
  };
  canvas.addEventListener("pointerdown", event => {
    if (event.button > 0) return;
    canvas.focus({preventScroll: true, focusVisible: false});
    app.cursor.isShown = false;
    canvas.setPointerCapture(event.pointerId);
    held.pointers.set(event.pointerId, at(event));
    if (held.pointers.size > 1) return;
    held.isDrag = false;
    held.began = at(event);
    if (app.drawing.isDrawing) app.press(...at(event), false);
  });
  canvas.addEventListener("pointermove", event => {
    const [x, y] = at(event), before = held.pointers.get(event.pointerId);
    if (!before) {
      app.pointed(x, y);
      return;
    }
    if (Math.hypot(x - held.began[0], y - held.began[1]) > STILL) held.isDrag = true;
    held.pointers.set(event.pointerId, [x, y]);
    if (held.pointers.size === 2) pinch(app, held, event.pointerId, before);
    else if (app.drawing.isDrawing) app.pointed(x, y);
    else if (held.isDrag) app.pan(x - before[0], y - before[1]);
  });
  const release = event => {
    if (!held.pointers.delete(event.pointerId) || held.pointers.size) return;
    if (app.drawing.isDrawing) {
      if (held.isDrag) app.release(...at(event));
    } else if (!held.isDrag && event.type === "pointerup") app.press(...at(event), event.shiftKey);
  };
  canvas.addEventListener("pointerup", release);
  canvas.addEventListener("pointercancel", release);
  canvas.addEventListener("dblclick", () => {
    if (app.drawing.kind === "polygon") app.drawing.close();
  });
  canvas.addEventListener("wheel", event => {
    event.preventDefault();
    app.zoom(Math.exp(-event.deltaY * (event.deltaMode ? 0.05 : 0.0015)), ...at(event));
  }, {passive: false});
};

// Two fingers: the map is zoomed by how far they are from each other, and goes with their middle.
const pinch = (app, held, moved, before) => {
  const [one, other] = [...held.pointers].sort(([id]) => (id === moved ? -1 : 1)).map(([, place]) => place);
  const was = Math.hypot(before[0] - other[0], before[1] - other[1]), is = Math.hypot(one[0] - other[0], one[1] - other[1]);
  app.pan((one[0] - before[0]) / 2, (one[1] - before[1]) / 2);
  if (was > 0) app.zoom(is / was, (one[0] + other[0]) / 2, (one[1] + other[1]) / 2);
  held.isDrag = true;
};

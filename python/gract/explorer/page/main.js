// Opens the map: takes the secret, asks for the facts, and then for all else.

import {App} from "./app.js";
import {listen as listenToKeys} from "./keys.js";
import {askBytes, askJson, heard, takeSecret} from "./net.js";
import {plain} from "./over.js";
import {listen as listenToPointer} from "./pointer.js";
import {hitsIn, ringsIn} from "./store.js";

const by = id => document.getElementById(id);

// A message that stays, with a button where there is something to do.
const banner = (text, label = "", work = null) => {
  by("banner").hidden = false;
  by("banner-text").textContent = plain(text);
  by("banner-do").hidden = !work;
  by("banner-do").textContent = label;
  by("banner-do").onclick = () => {
    by("banner").hidden = true;
    work();
  };
};

const again = () => location.reload();
const renew = async () => {
  try {
    await askJson("/renew");
    again();
  } catch (fault) {
    banner(fault.message, "Try again", renew);
  }
};

const onFault = (app, fault) => {
  if (fault.kind === "Ended") banner(`${fault.message} Start it with --at '${app.linked.text}' to go on from here.`, "Try again", again);
  else if (fault.kind === "Secret") banner(fault.message);
  else if (fault.kind === "ChangedError" || fault.kind === "ClosedError") banner(fault.message, "Open the new one", renew);
  else app.say(fault.message, true);
};

const listen = app => {
  listenToPointer(app);
  listenToKeys(app);
  for (const input of document.querySelectorAll("input[name=tool]")) input.addEventListener("change", () => app.setTool(input.value));
  by("zoom-in").addEventListener("click", () => app.zoom(1.5));
  by("zoom-out").addEventListener("click", () => app.zoom(1 / 1.5));
  by("all").addEventListener("click", () => app.showAll());
  by("names").addEventListener("change", () => app.setNames(by("names").checked));
  by("unit").addEventListener("change", () => app.setUnit(by("unit").value));
  by("theme").addEventListener("click", () => app.theme.turn());
};

// What may come after the first picture: the coast, names, and who is there at all.
const askMore = async app => {
  app.base.coast = ringsIn(await askBytes("/coast"));
  app.touch("base", "over");
  for (const [number, name] of Object.entries(await askJson("/names"))) app.names.set(+number, name);
  const options = document.createDocumentFragment();
  for (const name of [...app.names.values()].slice(0, 2000)) {
    const option = document.createElement("option");
    option.value = plain(name);
    options.append(option);
  }
  by("known").append(options);
  app.touch("over");
  if (app.facts.isArchive) return;
  const hits = hitsIn(await askBytes("/objects"));
  app.known = new Map(Array.from(hits.numbers, (number, nth) => [number, {instant: hits.first + hits.after[nth], place: [hits.x[nth] + 0.5, hits.y[nth] + 0.5]}]));
};

const begin = async () => {
  const isLetIn = takeSecret(), state = location.hash.slice(1);
  if (!isLetIn) {
    banner("This page is opened by the start file that gract names, not by its address. A link that was copied is opened by: python3 -m gract explore INDEX --at LINK");
    return;
  }
  let facts;
  try {
    facts = await askJson("/facts");
  } catch (fault) {
    banner(fault.message, "Try again", again);
    return;
  }
  document.title = `${plain(facts.title)} - gract`;
  by("title").textContent = plain(facts.title);
  by("coast").textContent = plain(facts.coast);
  by("unit").disabled = !facts.plane;
  if (facts.unit === null) document.querySelector(".zone").textContent = "Instant";
  const app = new App(facts);
  app.onFault = fault => onFault(app, fault);
  heard.replaced = isReplaced => {
    if (isReplaced) banner("The file was written anew since it was opened; what you see is of the old one.", "Open the new one", renew);
  };
  heard.version = version => {
    if (version !== facts.version) again();
  };
  listen(app);
  app.linked.take(state);
  app.loader.scrub(app.now);
  // For those who measure it, and for tests.
  window.gract = app;
  await app.still();
  window.pictured = performance.now();
  document.documentElement.dataset.ready = "yes";
  app.moved();
  askMore(app).catch(fault => onFault(app, fault));
};

begin();

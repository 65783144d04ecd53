"use strict";
// The page: a file comes in, and what is found in it is shown.

const look = { found: null, timeline: null, units: null, hover: null, chosen: null, file: null, compiled: null };
const theme = () => THEMES[matchMedia("(prefers-color-scheme: dark)").matches ? "dark" : "light"];

function draw() {
  const canvas = $("timeline"), ratio = window.devicePixelRatio || 1, wide = canvas.clientWidth;
  canvas.width = wide * ratio;
  canvas.height = HEIGHT * ratio;
  const c = canvas.getContext("2d");
  c.setTransform(ratio, 0, 0, ratio, 0, 0);
  if (!look.timeline) return;
  if (look.timeline.width !== wide) look.timeline.resize(wide);
  look.timeline.draw(c, theme(), look.hover, look.chosen);
}

// At most once a frame.
function redraw() {
  if (look.asked) return;
  look.asked = true;
  requestAnimationFrame(() => { look.asked = false; draw(); });
}

function tell(parts) { $("detail").replaceChildren(...parts); }

function choosePicture(i, bring) {
  look.chosen = i;
  if (bring) look.timeline.bring(i);
  tell(pictureDetail(look.found, i));
  redraw();
}

function chooseUnit(k, bring) {
  look.units.choose(k, bring);
  const picture = look.units.pictures.get(k);
  if (picture) look.chosen = look.timeline.index.get(picture.number);
  tell(unitDetail(look.found, k));
  redraw();
}

function show(found, name) {
  Object.assign(look, { found, hover: null, chosen: found.pictures.length ? 0 : null });
  look.timeline = new Timeline(found, $("timeline").clientWidth);
  look.units = new UnitTable(found);
  document.body.classList.add("full");
  summary(found, name);
  draw();
  if (found.pictures.length) choosePicture(0);
  else tell([element("p", "There is no picture in it.")]);
}

const options = () => ({ highest: Number($("highest").value), cra: $("cra").checked, layers: $("layers").checked });

function again() {
  if (!look.file) return;
  const { bytes, name } = look.file;
  if (isReport(bytes)) show(ofReport(new TextDecoder().decode(bytes)), name);
  else if (look.compiled) show(analysed(Library.instance(look.compiled), bytes, options()), name);
  else throw new Error("there is no decoder in this page: it shows reports of hevc_trace");
}

async function attempt(what) {
  $("message").textContent = "";
  try { await what(); } catch (error) { $("message").textContent = String(error.message || error); }
}

const take = file => attempt(async () => {
  look.file = { bytes: new Uint8Array(await file.arrayBuffer()), name: file.name };
  again();
});

function listenToTimeline() {
  const canvas = $("timeline");
  let held = null;
  canvas.addEventListener("mousemove", event => {
    if (!look.timeline) return;
    if (held) {
      look.timeline.from = held.from - (event.offsetX - held.x);
      held.moved ||= Math.abs(event.offsetX - held.x) > 3;
    }
    const i = look.timeline.indexAt(event.offsetX);
    if (i !== null && i !== look.hover) tell(pictureDetail(look.found, i));
    look.hover = i;
    redraw();
  });
  canvas.addEventListener("mouseleave", () => {
    look.hover = held = null;
    if (look.found && look.chosen !== null) tell(pictureDetail(look.found, look.chosen));
    redraw();
  });
  canvas.addEventListener("mousedown", event => { held = look.timeline && { x: event.offsetX, from: look.timeline.from, moved: false }; });
  canvas.addEventListener("mouseup", event => {
    const i = look.timeline && look.timeline.indexAt(event.offsetX);
    if (held && !held.moved && i !== null) choosePicture(i);
    held = null;
  });
  canvas.addEventListener("wheel", event => {
    if (!look.timeline) return;
    event.preventDefault();
    if (event.shiftKey || Math.abs(event.deltaX) > Math.abs(event.deltaY)) look.timeline.from += event.deltaX || event.deltaY;
    else look.timeline.zoom(event.offsetX, Math.exp(-event.deltaY / 400));
    redraw();
  }, { passive: false });
}

// Arrows go from picture to picture, plus and minus zoom, 0 shows all.
function pressed(event) {
  if (!look.timeline || look.chosen === null || /^(INPUT|SELECT|BUTTON)$/.test(event.target.tagName)) return;
  const { pictures } = look.found, middle = LEFT + look.timeline.room / 2;
  const to = { ArrowLeft: look.chosen - 1, ArrowRight: look.chosen + 1, Home: 0, End: pictures.length - 1 }[event.key];
  if (pictures[to]) choosePicture(to, true);
  else if (event.key === "+" || event.key === "-") look.timeline.zoom(middle, event.key === "+" ? 1.25 : 0.8);
  else if (event.key === "0") look.timeline.fit();
  else return;
  event.preventDefault();
  redraw();
}

function listen() {
  listenToTimeline();
  document.addEventListener("keydown", pressed);
  $("units").addEventListener("scroll", () => look.units && look.units.draw());
  $("units").addEventListener("click", event => {
    const row = event.target.closest(".row");
    if (row) chooseUnit(Number(row.dataset.unit));
  });
  $("kinds").addEventListener("change", () => look.units.list());
  $("refusal").addEventListener("click", () => {
    const { unit } = look.found.refusals[0];
    if (unit < look.found.unitTable.length) chooseUnit(unit, true);
  });
  for (const it of ["highest", "cra", "layers"]) $(it).addEventListener("change", () => attempt(again));
  for (const it of Object.keys(SAVED)) $("save-" + it).addEventListener("click", () => look.found && save(it, look.found, look.timeline, theme(), look.chosen));
  $("file").addEventListener("change", event => event.target.files[0] && take(event.target.files[0]));
  document.addEventListener("dragover", event => event.preventDefault());
  document.addEventListener("drop", event => {
    event.preventDefault();
    if (event.dataTransfer.files[0]) take(event.dataTransfer.files[0]);
  });
  addEventListener("resize", redraw);
  matchMedia("(prefers-color-scheme: dark)").addEventListener("change", redraw);
}

const bytesOf = id => Uint8Array.from(atob($(id).textContent.trim()), it => it.charCodeAt(0));

async function begin() {
  listen();
  const given = bytesOf("given");
  if (given.length) {
    look.file = { bytes: given, name: "the report" };
    again();
  }
  const module = bytesOf("module");
  if (!module.length) return;
  try {
    look.compiled = await WebAssembly.compile(module);
    Library.instance(look.compiled);
  } catch (error) {
    look.compiled = null;
    $("message").textContent = `This browser can't run the decoder, which needs WebAssembly with 64-bit memory (Chromium 133, Firefox 134): ${error.message}`;
  }
}

const begun = begin();

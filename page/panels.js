"use strict";
// What is told of what is chosen, and the table of units. Every text is put by textContent, so no stream can add markup.

const $ = id => document.getElementById(id);
const count = it => it.toLocaleString("en-GB");

function element(tag, text, kind) {
  const it = document.createElement(tag);
  if (text !== undefined) it.textContent = text;
  if (kind) it.className = kind;
  return it;
}

// Names and values; what has no value is left out.
function pairs(all) {
  const list = element("dl");
  for (const [name, value] of all) {
    if (value === undefined || value === null) continue;
    const text = String(Array.isArray(value) ? value.join(", ") || "–" : value), kind = text.length > 44 ? "long" : "";
    list.append(element("dt", name, kind), element("dd", text, kind));
  }
  return list;
}

const listText = list => list.join(" ") || "–";

const ENDS = { hidden: "no: PicOutputFlag is 0", dropped: "no: it was discarded or given up", skipped: "no: it is not decoded" };

// Seconds and milliseconds of an order count, where the sequence has timing.
function timeOf(it, sequence) {
  const timing = sequence && sequence.sequence;
  if (!timing || !timing.vui_time_scale || it.place === null) return null;
  return (it.place * timing.vui_num_units_in_tick / timing.vui_time_scale).toFixed(3) + " s";
}

function pictureDetail(found, i) {
  const it = found.pictures[i], sequence = found.sequences[it.sequence];
  const named = n => found.byNumber.has(n) ? `${n} (${found.byNumber.get(n).count})` : n;
  const parts = [element("h2", `Picture ${it.number} · ${it.kind} · ${unitName(it.type)}`), pairs([
    ["PicOrderCntVal", it.count],
    ["output", it.place !== null ? `place ${it.place}, at unit ${it.shown}` : ENDS[it.end] || "not yet"],
    ["time at this rate", timeOf(it, sequence)],
    ["first unit", it.unit], ["sub-layer", it.temporal],
    ["slice segments", `${it.slices.length}, ${count(it.bytes)} bytes`],
    ["buffer", it.held && `${it.held.references} named, ${it.held.waiting} waiting, and itself`],
    ["sequence", sequence && `${sequence.width} × ${sequence.height}, buffer ${sequence.max_num_pics}`],
  ])];
  if (it.sets) parts.push(element("h3", "Reference picture set (8.3.2): number (order count)"), pairs(SET_NAMES.map((name, k) => [name, listText(it.sets[k].map(named))])));
  if (it.slices.length) {
    const table = element("table");
    for (const { address, lists } of it.slices.slice(0, 60)) {
      const row = element("tr");
      row.append(element("td", "@" + address), ...lists.map((list, k) => element("td", `L${k} ${listText(list.map(named))}`)));
      table.append(row);
    }
    parts.push(element("h3", "Reference picture lists, by the address of the slice segment"), table);
  }
  return parts;
}

// The fields of a struct as pairs, those of structs within it too, and the flags that are set.
function fieldPairs(fields, name) {
  const kinds = Object.fromEntries(LAYOUT.structs[name].fields.map(it => [it[0], it[2]]));
  return Object.entries(fields).flatMap(([own, value]) => {
    if (own === "reserved") return [];
    if (own === "flags") return [["flags", LAYOUT.flags[name].filter((_, bit) => value >>> bit & 1)]];
    return LAYOUT.structs[kinds[own]] && !Array.isArray(value) ? fieldPairs(value, kinds[own]) : [[own, Array.isArray(value) ? value.map(it => typeof it === "object" ? JSON.stringify(it) : it) : value]];
  });
}

const PARTS = { vps: "Video parameter set", sps: "Sequence parameter set", pps: "Picture parameter set", slice: "Slice segment header" };

function unitDetail(found, k) {
  const unit = found.unitTable[k], parts = [element("h2", `Unit ${k} · ${unitName(unit.type)}`), pairs([
    ["offset", count(unit.offset)], ["bytes", count(unit.bytes)], ["nuh_layer_id", unit.layer], ["TemporalId", unit.temporal],
    ["refused", unit.status ? refusalText(unit) : null],
  ])];
  if (unit.raw) parts.push(element("h3", PARTS[unit.part]), pairs(fieldPairs(fieldsOf(unit), "fezhalum_" + unit.part)));
  return parts;
}

// A line on a parameter set.
function shortly(unit) {
  if (!unit.raw || unit.part === "slice") return "";
  const it = fieldsOf(unit);
  return {
    vps: () => `id ${it.vps_video_parameter_set_id}, ${it.vps_max_sub_layers_minus1 + 1} sub-layers`,
    sps: () => `id ${it.sps_seq_parameter_set_id}, ${it.pic_width_in_luma_samples} × ${it.pic_height_in_luma_samples}, level ${it.profile.general_level_idc / 30}`,
    pps: () => `id ${it.pps_pic_parameter_set_id}, sequence set ${it.pps_seq_parameter_set_id}`,
  }[unit.part]();
}

// The table of units: only the rows in view are made.
class UnitTable {
  constructor(found) {
    this.found = found;
    this.chosen = null;
    this.refusals = new Map(found.refusals.map(it => [it.unit, it]));
    this.pictures = new Map(found.pictures.flatMap(it => it.slices.map(slice => [slice.unit, it])));
    const kinds = new Map();
    for (const { type } of found.unitTable) kinds.set(type, (kinds.get(type) || 0) + 1);
    $("kinds").replaceChildren(new Option(`all ${count(found.unitTable.length)} units`, ""));
    for (const [type, many] of [...kinds].sort((a, b) => a[0] - b[0])) $("kinds").add(new Option(`${unitName(type)} (${count(many)})`, type));
    this.list();
  }

  list() {
    const wanted = $("kinds").value;
    this.listed = this.found.unitTable.map((_, k) => k).filter(k => wanted === "" || this.found.unitTable[k].type === Number(wanted));
    $("units").scrollTop = 0;
    this.draw();
  }

  // Chooses a unit, and brings it into view.
  choose(k, bring) {
    this.chosen = k;
    if (bring) {
      $("kinds").value = "";
      this.list();
      $("units").scrollTop = Math.max(0, k - 4) * UnitTable.ROW;
    }
    this.draw();
  }

  draw() {
    const box = $("units"), { ROW } = UnitTable;
    const from = Math.max(0, Math.floor(box.scrollTop / ROW) - 4), to = Math.min(this.listed.length, from + Math.ceil(box.clientHeight / ROW) + 8);
    $("rows").style.height = this.listed.length * ROW + "px";
    $("rows").replaceChildren(...this.listed.slice(from, to).map((k, i) => this.row(k, (from + i) * ROW)));
  }

  row(k, top) {
    const unit = this.found.unitTable[k], picture = this.pictures.get(k), refusal = this.refusals.get(k) || (unit.status ? unit : null);
    const row = element("div", undefined, `row${k === this.chosen ? " on" : ""}${refusal ? " bad" : ""}`);
    row.style.top = top + "px";
    row.dataset.unit = k;
    const told = refusal ? "refused: " + refusalText(refusal) : picture ? `picture ${picture.number}, ${picture.kind}, order count ${picture.count}` : shortly(unit);
    row.append(...[k, unitName(unit.type), count(unit.offset), count(unit.bytes), `${unit.layer}/${unit.temporal}`, told].map(it => element("span", it)));
    return row;
  }
}
UnitTable.ROW = 22;

// The line above all.
function summary(found, name) {
  const kinds = { I: 0, P: 0, B: 0 }, ends = {};
  for (const it of found.pictures) {
    kinds[it.kind]++;
    ends[it.end] = (ends[it.end] || 0) + 1;
  }
  const others = ["hidden", "dropped", "skipped"].filter(it => ends[it]).map(it => `${count(ends[it])} ${it}`);
  const facts = [`${count(found.bytes)} bytes`, `${count(found.unitTable.length)} units`,
    `${count(found.pictures.length)} pictures (${kinds.I} I, ${kinds.P} P, ${kinds.B} B)`, [`${count(found.outputs.length)} output`, ...others].join(", "),
    ...found.sequences.slice(0, 4).map(s => `${s.width} × ${s.height}, profile ${s.general_profile_idc}, ${s.bit_depth_luma_minus8 + 8} bits, buffer ${s.max_num_pics}`),
    found.times && `${found.times.decode.toFixed(1)} ms decoding, ${found.times.read.toFixed(1)} ms reading`];
  $("summary").replaceChildren(element("strong", name), ...facts.filter(Boolean).map(it => element("span", it)));
  $("refusal").hidden = !found.refusals.length;
  const [first] = found.refusals;
  if (first) $("refusal").textContent = `Unit ${first.unit} is refused: ${refusalText(first)}. `
    + (found.fromReport ? "What comes before it is shown." : `${count(found.refusals.length)} refused in all, passed over; the report stops at the first.`);
}

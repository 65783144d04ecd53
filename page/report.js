"use strict";
// The report of hevc_trace (docs/REPORT.md): of what the page found, and read again.

const CAUSES = { [S.NO_MEMORY]: "NoMemory", [S.TRUNCATED_UNIT]: "TruncatedNalu", [S.INVALID_UNIT_TYPE]: "InvalidNaluType",
  [S.OUT_OF_BITS]: "OutOfBits", [S.OUT_OF_RANGE]: "OutOfRange", [S.MISSING_PPS]: "MissingPps",
  [S.NO_INDEPENDENT_SLICE]: "NoIndependentSlice", [S.CHANGED_MID_PICTURE]: "ChangedMidPicture", [S.POC_OUT_OF_RANGE]: "PocOutOfRange",
  [S.DPB_FULL]: "DpbFull", [S.PICTURE_NUMBERS_SPENT]: "PictureNumbersSpent", [S.BACKEND]: "Backend" };

const listLine = list => list.length ? list.map(it => ({ missing: "x", current: "c" })[it] ?? it).join(",") : "-";

const sequenceLine = s => `seq ${s.width}x${s.height} profile ${s.general_profile_idc} depth ${s.bit_depth_luma_minus8 + 8} `
  + `${s.bit_depth_chroma_minus8 + 8} chroma ${s.chroma_format_idc} buffer ${s.max_num_pics}`;

// The lines of a picture with so many slices; of a skipped one there are none.
function* pictureLines(it, slices, submitted) {
  if (it.end === "skipped") return;
  yield `pic ${it.number} type ${it.type} poc ${it.count} output ${it.isOutput ? 1 : 0}`;
  for (const s of it.slices.slice(0, slices))
    yield `slice ${it.number} at ${s.address} size ${s.bytes} list0 ${listLine(s.lists[0])} list1 ${listLine(s.lists[1])}`;
  if (submitted) yield `submit ${it.number} handle ${it.handle}`;
}

function lastLine(found, pictures, outputs) {
  const refusal = found.refusals[0];
  if (!refusal) return `end pictures ${pictures.length ? pictures.at(-1).number + 1 : 0} shown ${outputs.length}`;
  const { status, table, row, unit } = refusal;
  const told = status === S.OUT_OF_RANGE ? ` ${table} ${row}` : status === S.INVALID_UNIT_TYPE || status === S.MISSING_PPS ? ` ${row}` : "";
  return `refused unit ${unit} ${CAUSES[status]}${told}`;
}

// The report, which stops at the first refused unit.
function report(found) {
  const { stopped } = found, lines = [], sequences = found.sequences.slice(0, stopped.sequences);
  const pictures = found.pictures.slice(0, stopped.pictures), outputs = found.outputs.slice(0, stopped.outputs);
  const begin = i => { while (sequences.length && sequences[0].first <= i) lines.push(sequenceLine(sequences.shift())); };
  pictures.forEach((it, i) => {
    const isLast = i === pictures.length - 1;
    begin(i);
    lines.push(...pictureLines(it, isLast ? stopped.slices : it.slices.length, isLast ? stopped.submitted : it.handle !== undefined));
  });
  begin(Infinity);
  for (const number of outputs) {
    const it = found.byNumber.get(number);
    lines.push(`show ${number} poc ${it.count} unit ${it.shown}`);
  }
  lines.push(lastLine(found, pictures, outputs));
  return lines.join("\n") + "\n";
}

// Whether a file is a report and no stream, which begins with zeros.
const isReport = bytes => /^(seq|pic|end|refused) /.test(new TextDecoder().decode(bytes.subarray(0, 8)));

const listOf = text => text === "-" ? [] : text.split(",").map(it => ({ x: "missing", c: "current" })[it] ?? Number(it));

// A line of a report, put into what was found.
function takeLine(found, line) {
  const [kind, ...w] = line.split(" "), n = w.map(Number), picture = found.byNumber.get(n[0]);
  if (kind === "seq") {
    const [width, height] = w[0].split("x").map(Number);
    found.sequences.push({ first: found.pictures.length, unit: 0, width, height, general_profile_idc: n[2], bit_depth_luma_minus8: n[4] - 8,
      bit_depth_chroma_minus8: n[5] - 8, chroma_format_idc: n[7], max_num_pics: n[9] });
  } else if (kind === "pic") {
    const it = { number: n[0], unit: found.unitTable.length, type: n[2], count: n[4], isOutput: n[6] === 1, sets: null, slices: [], bytes: 0,
      place: null, shown: null, end: n[6] === 1 ? null : "hidden", sequence: found.sequences.length - 1 };
    found.pictures.push(it);
    found.byNumber.set(it.number, it);
  } else if (kind === "slice") {
    picture.slices.push({ unit: found.unitTable.length, bytes: n[4], address: n[2], lists: [listOf(w[6]), listOf(w[8])] });
    picture.bytes += n[4];
    found.bytes += n[4];
    found.unitTable.push({ offset: 0, bytes: n[4], type: picture.type, layer: 0, temporal: 0, status: 0, table: 0, row: 0, part: null, raw: null });
  } else if (kind === "submit") picture.handle = n[2];
  else if (kind === "show") {
    Object.assign(picture, { place: found.outputs.length, shown: n[4], end: "output" });
    found.outputs.push(n[0]);
  } else if (kind === "refused") {
    const status = Number(Object.keys(CAUSES).find(it => CAUSES[it] === w[2]) ?? S.BACKEND);
    found.refusals.push({ unit: n[1], status, table: n.length > 4 ? n[3] : 0, row: n.at(-1) || 0, before: found.pictures.length });
  }
}

// What the page shows of a report: no sets, and of units those of slices alone.
function ofReport(text) {
  const found = { pictures: [], sequences: [], outputs: [], refusals: [], unitTable: [], bytes: 0, byNumber: new Map(), fromReport: true };
  for (const line of text.trimEnd().split("\n")) takeLine(found, line);
  found.stopped = stoppedAt(found);
  completed(found);
  for (const picture of found.pictures) picture.held = null;
  return found;
}

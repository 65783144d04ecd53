"use strict";
// What is in a stream: its units, and its pictures in order of decoding.

const SET_NAMES = ["StCurrBefore", "StCurrAfter", "StFoll", "LtCurr", "LtFoll"];
const UNIT_NAMES = {
  0: "TRAIL_N", 1: "TRAIL_R", 2: "TSA_N", 3: "TSA_R", 4: "STSA_N", 5: "STSA_R", 6: "RADL_N", 7: "RADL_R", 8: "RASL_N", 9: "RASL_R",
  16: "BLA_W_LP", 17: "BLA_W_RADL", 18: "BLA_N_LP", 19: "IDR_W_RADL", 20: "IDR_N_LP", 21: "CRA", 32: "VPS", 33: "SPS", 34: "PPS",
  35: "AUD", 36: "EOS", 37: "EOB", 38: "FD", 39: "PREFIX_SEI", 40: "SUFFIX_SEI",
};
const unitName = type => UNIT_NAMES[type] || "type " + type;
const isIrap = type => type >= 16 && type <= 23;
const MANY_FRAMES = 1n << 40n;

// A list of pictures: numbers, "missing" or "current".
function listAt(view, at) {
  const { numbers, kinds, count } = placesIn("fezhalum_places"), length = view.getUint32(at + count, true);
  return Array.from({ length }, (_, i) => {
    const kind = view.getUint8(at + kinds + i);
    return kind === 0 ? Number(view.getBigUint64(at + numbers + 8 * i, true)) : kind === 1 ? "missing" : "current";
  });
}

// What events say of pictures, as they come.
class Pictures {
  constructor() {
    this.found = { pictures: [], sequences: [], outputs: [], refusals: [], byNumber: new Map() };
    this.submitted = 0;
    this.at = placesIn("fezhalum_event");
  }

  picture(number, unit, more) {
    const picture = {
      number, unit, type: null, count: null, isOutput: false, sets: null, slices: [], bytes: 0, place: null, shown: null, end: null,
      sequence: this.found.sequences.length - 1, ...more,
    };
    this.found.byNumber.set(number, picture);
    this.found.pictures.push(picture);
  }

  // One event at a place of the memory, of the unit of this number.
  take(library, event, unit) {
    const view = library.view(), base = Number(event), { at, found } = this;
    const u32 = name => view.getUint32(base + at[name], true);
    const number = Number(view.getBigUint64(base + at.number, true)), picture = found.byNumber.get(number);
    const list = i => listAt(view, base + at.lists + i * LAYOUT.structs.fezhalum_places.size);
    switch (u32("kind")) {
      case K.SEQUENCE: {
        const it = library.read("fezhalum_event", event);
        found.sequences.push({ ...it, first: found.pictures.length, unit });
        break;
      }
      case K.PICTURE:
        this.picture(number, unit, {
          type: u32("nal_unit_type"), count: view.getInt32(base + at.order_count, true), isOutput: u32("is_output") === 1,
        });
        break;
      case K.SKIP: this.picture(number, unit, { end: "skipped" }); break;
      case K.SETS: picture.sets = SET_NAMES.map((_, i) => list(i)); break;
      case K.SLICE: {
        const bytes = Number(view.getBigUint64(base + at.size, true));
        picture.bytes += bytes;
        picture.slices.push({ unit, bytes, address: u32("address"), lists: [list(0), list(1)] });
        break;
      }
      case K.SUBMIT:
        picture.handle = this.submitted++;
        if (!picture.isOutput) picture.end = "hidden";
        break;
      case K.OUTPUT:
        Object.assign(picture, { place: found.outputs.length, shown: unit, end: "output" });
        found.outputs.push(number);
        break;
      case K.DROP: picture.end = "dropped"; picture.dropped = unit; break;
    }
  }
}

// How far a stream was decoded that stops here.
function stoppedAt({ pictures, outputs, sequences }) {
  const last = pictures.at(-1);
  return {
    pictures: pictures.length, outputs: outputs.length, sequences: sequences.length,
    slices: last ? last.slices.length : 0, submitted: Boolean(last && last.handle !== undefined),
  };
}

// Decodes the bytes at a place. A refused unit is passed over and noted; the report stops at the first.
function decoded(library, place, size, { highest, cra, layers }) {
  const { calls } = library, pictures = new Pictures(), { found } = pictures;
  const decoder = library.room(Number(calls.fezhalum_size())), call = library.zeros("fezhalum_decode_call");
  const event = library.zeros("fezhalum_event"), options = library.zeros("fezhalum_options");
  const c = placesIn("fezhalum_decode_call"), base = Number(call);
  [cra ? 1 : 0, highest, layers ? 63 : 0].forEach((it, i) => library.view().setUint32(Number(options) + 4 * i, it, true));
  calls.fezhalum_init_with(decoder, options, 3n);
  library.view().setBigUint64(base + c.free_frames, MANY_FRAMES, true);
  const carryOut = unit => { while (calls.fezhalum_next(decoder, event)) pictures.take(library, event, unit); };
  const refuse = (unit, status) => {
    const view = library.view();
    found.refusals.push({ unit, status, table: view.getUint32(base + c.table, true), row: view.getUint32(base + c.row, true), before: found.pictures.length });
  };
  let at = 0n, unit = 0, status;
  for (;;) {
    status = calls.fezhalum_decode(decoder, place + at, size - at, call);
    carryOut(unit);
    if (status === S.NO_UNIT || status === S.NO_MEMORY) break;
    if (status === S.FORMAT) {
      calls.fezhalum_accept_format(decoder);
      continue;
    }
    if (status !== S.OK) {
      found.stopped ??= stoppedAt(found);
      refuse(unit, status);
    }
    at += library.view().getBigUint64(base + c.next, true);
    unit += 1;
  }
  if (status === S.NO_UNIT) status = calls.fezhalum_flush(decoder);
  carryOut(unit);
  if (status !== S.OK) {
    found.stopped ??= stoppedAt(found);
    refuse(unit, status);
  }
  found.stopped ??= stoppedAt(found);
  calls.fezhalum_end(decoder);
  library.give(decoder, call, event, options);
  found.units = unit;
  return found;
}

// Which struct a unit of this type fills.
const partOf = type => ({ 32: "vps", 33: "sps", 34: "pps" })[type] || (type <= 9 || (type >= 16 && type <= 21) ? "slice" : null);

// The units, each with the struct of what was read of it, as bytes.
function unitsOf(library, place, size) {
  const { calls } = library, units = [], sets = library.room(Number(calls.fezhalum_sets_size())), told = library.zeros("fezhalum_read");
  const parts = placesIn("fezhalum_read");
  calls.fezhalum_sets_init(sets);
  for (let at = 0n; ;) {
    const status = calls.fezhalum_read_unit(sets, place + at, size - at, told);
    if (status === S.NO_UNIT || status === S.NO_MEMORY) break;
    const it = library.read("fezhalum_unit", told), part = status === S.OK ? partOf(it.nal_unit_type) : null;
    const from = part && Number(told) + parts[part];
    units.push({
      offset: Number(at) + it.offset, bytes: it.size, type: it.nal_unit_type, layer: it.layer_id, temporal: it.temporal_id,
      status, table: it.table, row: it.row, part, raw: part && calls.memory.buffer.slice(from, from + LAYOUT.structs["fezhalum_" + part].size),
    });
    at += BigInt(it.next);
  }
  calls.fezhalum_sets_end(sets);
  library.give(sets, told);
  return units;
}

// The fields of what was read of a unit.
const fieldsOf = unit => Library.struct(new DataView(unit.raw), "fezhalum_" + unit.part, 0);

// How many pictures the buffer holds as each begins: those that its reference picture set names, and others that wait to be output. This
// follows from the events.
function followBuffer(pictures) {
  let waiting = [];
  for (const picture of pictures) {
    const named = new Set((picture.sets || []).flat().filter(it => typeof it === "number"));
    waiting = waiting.filter(it => it.end === "dropped" ? it.dropped > picture.unit : it.shown === null || it.shown > picture.unit);
    picture.held = { references: named.size, waiting: waiting.filter(it => !named.has(it.number)).length };
    if (picture.isOutput) waiting.push(picture);
  }
}

// I, P or B, by the types of its independent slice segments, or by the lists where no header is there.
function kindOf(picture, units) {
  const kinds = picture.slices.map(({ unit }) => units[unit]).filter(it => it && it.part === "slice").map(fieldsOf)
    .filter(it => !(it.flags & 1 << LAYOUT.flags.fezhalum_slice.indexOf("dependent_slice_segment_flag"))).map(it => "BPI"[it.slice_type]);
  if (kinds.length) return ["B", "P"].find(it => kinds.includes(it)) || "I";
  const listed = k => picture.slices.some(it => it.lists[k].length);
  return listed(1) ? "B" : listed(0) ? "P" : "I";
}

// What follows of the pictures for who looks at them.
function completed(found) {
  followBuffer(found.pictures);
  for (const picture of found.pictures) {
    picture.kind = kindOf(picture, found.unitTable);
    picture.references = [...new Set(picture.slices.flatMap(it => it.lists.flat()))].filter(it => typeof it === "number" && it !== picture.number);
    const first = found.unitTable[picture.slices.length ? picture.slices[0].unit : picture.unit];
    picture.temporal = first ? first.temporal : 0;
    if (picture.type === null && first) picture.type = first.type;
  }
  return found;
}

// All that the page shows of a stream.
function analysed(library, bytes, options) {
  const size = BigInt(bytes.length), place = library.room(bytes.length + 1);
  new Uint8Array(library.calls.memory.buffer).set(bytes, Number(place));
  const times = [performance.now()];
  const found = decoded(library, place, size, options);
  times.push(performance.now());
  found.unitTable = unitsOf(library, place, size);
  times.push(performance.now());
  library.give(place);
  Object.assign(found, { bytes: bytes.length, times: { decode: times[1] - times[0], read: times[2] - times[1] } });
  return completed(found);
}

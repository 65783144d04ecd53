"use strict";
// The library's calls (include/fezhalum.h, include/fezhalum_sets.h) in a WebAssembly module, and its structs in the module's memory.

class Library {
  // A module's memory only grows, and after a trap nothing is known of it: each stream gets an instance of its own.
  static instance(compiled) {
    const library = new Library();
    library.calls = new WebAssembly.Instance(compiled, {}).exports;
    library.checkLayout();
    return library;
  }

  // The memory, which may have grown since the last call.
  view() {
    const buffer = this.calls.memory.buffer;
    if (!this.seen || this.seen.buffer !== buffer) this.seen = new DataView(buffer);
    return this.seen;
  }

  room(size) {
    const place = this.calls.page_alloc(BigInt(size));
    if (place === 0n) throw new Error("no memory for " + size + " bytes");
    return place;
  }

  give(...places) {
    for (const place of places) this.calls.page_free(place);
  }

  // Room for a struct, all 0.
  zeros(name) {
    const { size } = LAYOUT.structs[name], place = this.room(size);
    new Uint8Array(this.calls.memory.buffer, Number(place), size).fill(0);
    return place;
  }

  static number(view, kind, place) {
    switch (kind) {
      case "uint8": return view.getUint8(place);
      case "int8": return view.getInt8(place);
      case "uint16": return view.getUint16(place, true);
      case "int16": return view.getInt16(place, true);
      case "uint32": return view.getUint32(place, true);
      case "int32": return view.getInt32(place, true);
      default: return Number(view.getBigUint64(place, true));
    }
  }

  static field(view, [, at, kind, count], base) {
    const struct = LAYOUT.structs[kind], size = struct ? struct.size : Number(kind.replace(/\D/g, "")) / 8;
    const one = place => struct ? Library.struct(view, kind, place) : Library.number(view, kind, place);
    return count ? Array.from({ length: count }, (_, i) => one(base + at + i * size)) : one(base + at);
  }

  // A struct's fields, by their names.
  static struct(view, name, base) {
    return Object.fromEntries(LAYOUT.structs[name].fields.map(field => [field[0], Library.field(view, field, base)]));
  }

  read(name, place) {
    return Library.struct(this.view(), name, Number(place));
  }

  // The library fills each field with another number: those have to come back from where the headers say that the fields are.
  checkLayout() {
    for (const name of ["event", "decode_call", "unit"]) this.checkStruct("fezhalum_" + name, this.calls["fezhalum_layout_" + name]);
  }

  checkStruct(name, fill) {
    const place = this.zeros(name), size = Number(fill(place)), told = this.read(name, place);
    this.give(place);
    if (size !== LAYOUT.structs[name].size) throw new Error(`${name} has ${size} bytes`);
    const numbers = [];
    const collect = it => typeof it === "number" ? numbers.push(it) : Object.values(it).forEach(collect);
    collect(told);
    const told0 = numbers.filter(it => it !== 0);
    if (new Set(told0).size !== told0.length) throw new Error(name + " is laid out otherwise");
  }
}

// Where the fields of a struct lie, by their names.
const placesIn = name => Object.fromEntries(LAYOUT.structs[name].fields.map(it => [it[0], it[1]]));

const S = LAYOUT.statuses, K = LAYOUT.kinds;

// What a status says, with the row, the type or the id that it names.
function refusalText({ status, table, row }) {
  const named = { [S.OUT_OF_RANGE]: `, row ${row} of table ${table}`, [S.INVALID_UNIT_TYPE]: `, ${row}`, [S.MISSING_PPS]: `, ${row}`, [S.MISSING_SPS]: `, ${row}` };
  return LAYOUT.texts[status] + (named[status] || "");
}

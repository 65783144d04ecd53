"use strict";
// The timeline: a column a picture, in order of decoding, and from top to bottom its bytes, what it refers to, its sub-layer, its way to
// its place in order of output, and the buffer as it begins. Only what is seen is drawn.

const LEFT = 78, RIGHT = 14;
const BANDS = [["head", 30], ["sizes", 84], ["arcs", 128], ["layers", 62], ["crossing", 86], ["places", 24], ["buffer", 66]];
const Y = {};
let HEIGHT = 8;
for (const [name, high] of BANDS) {
  Y[name] = { top: HEIGHT, high, bottom: HEIGHT + high };
  HEIGHT += high;
}
HEIGHT += 8;

class Timeline {
  constructor(found, width) {
    this.found = found;
    this.width = width;
    this.index = new Map(found.pictures.map((it, i) => [it.number, i]));
    const most = (least, of) => found.pictures.reduce((a, it, i) => Math.max(a, of(it, i)), least);
    this.mostBytes = most(1, it => it.bytes);
    this.layers = most(0, it => it.temporal);
    this.reach = most(1, (it, i) => it.references.reduce((a, to) => Math.max(a, Math.abs(i - (this.index.get(to) ?? i))), 1));
    this.capacity = found.sequences.reduce((a, it) => Math.max(a, it.max_num_pics), 1);
    this.usedBy = new Map();
    for (const it of found.pictures) for (const to of it.references) this.usedBy.set(to, [...this.usedBy.get(to) || [], it]);
    this.fit();
  }

  get room() { return this.width - LEFT - RIGHT; }

  // As many pictures as are well seen.
  fit() {
    this.least = Math.min(40, this.room / Math.max(1, this.found.pictures.length));
    this.cell = this.fitted = Math.max(this.least, 3);
    this.from = 0;
  }

  // The window is as wide as this now.
  resize(width) {
    const isFit = this.cell === this.fitted && this.from === 0;
    this.width = width;
    if (isFit) this.fit();
  }

  x(i) { return LEFT + (i + 0.5) * this.cell - this.from; }

  indexAt(x) {
    const i = Math.floor((x - LEFT + this.from) / this.cell);
    return x >= LEFT && i >= 0 && i < this.found.pictures.length ? i : null;
  }

  zoom(x, by) {
    const at = (x - LEFT + this.from) / this.cell;
    this.cell = Math.min(60, Math.max(Math.min(this.least, 3, 0.4), this.cell * by));
    this.from = at * this.cell - (x - LEFT);
  }

  keepInside() {
    this.from = Math.max(0, Math.min(this.from, this.cell * this.found.pictures.length - this.room));
  }

  // Brings a picture into view.
  bring(i) {
    if (this.x(i) < LEFT + 20 || this.x(i) > this.width - 40) this.from += this.x(i) - this.width / 2;
  }

  layerY(it) {
    const { top, high } = Y.layers;
    return top + 9 + (high - 20) * (this.layers ? 1 - it.temporal / this.layers : 0.5);
  }

  // Draws all of it, with the pictures over which the pointer is and which is chosen.
  draw(c, theme, hover, chosen) {
    Object.assign(this, { c, theme, hover });
    this.keepInside();
    this.first = Math.max(0, Math.floor(this.from / this.cell) - 1);
    this.last = Math.min(this.found.pictures.length, Math.ceil((this.from + this.room) / this.cell) + 1);
    this.pinned = hover ?? chosen;
    c.font = "11px system-ui, sans-serif";
    c.textBaseline = "middle";
    this.drawNames();
    c.save();
    c.beginPath();
    c.rect(LEFT, 0, this.width - LEFT - RIGHT, HEIGHT);
    c.clip();
    for (const part of ["Grid", "Sequences", "Points", "Sizes", "Arcs", "Crossing", "Dots", "Buffer", "Pinned", "Refusals"]) this["draw" + part]();
    c.restore();
  }

  *seen() {
    for (let i = this.first; i < this.last; i++) yield [i, this.found.pictures[i]];
  }

  colour(it) { return this.theme[it.kind]; }

  drawNames() {
    const { c, theme } = this;
    c.textAlign = "right";
    c.fillStyle = theme.faint;
    const middle = name => Y[name].top + Y[name].high / 2;
    for (const [text, y] of [["bytes", middle("sizes")], ["references", middle("arcs")], ["decoded", Y.crossing.top + 6],
      ["output", Y.places.top + 2], ["buffer", middle("buffer")]]) c.fillText(text, LEFT - 8, y);
    for (let t = 0; t <= this.layers; t++) c.fillText(this.layers ? "sub-layer " + t : "", LEFT - 8, this.layerY({ temporal: t }));
  }

  get step() {
    return [1, 2, 5, 10, 20, 50, 100, 200, 500, 1000, 2000, 5000, 10000].find(it => it * this.cell >= 46) || 100000;
  }

  drawGrid() {
    const { c, theme, step } = this;
    c.textAlign = "center";
    c.lineWidth = 1;
    for (let i = Math.ceil(this.first / step) * step; i < this.last; i += step) {
      c.fillStyle = theme.faint;
      c.fillText(this.found.pictures[i].number, this.x(i), Y.head.top + 4);
      c.strokeStyle = theme.line;
      c.globalAlpha = 0.5;
      line(c, this.x(i), Y.head.bottom, this.x(i), HEIGHT - 8);
      c.globalAlpha = 1;
    }
  }

  drawSequences() {
    const { c, theme } = this;
    c.strokeStyle = theme.faint;
    c.setLineDash([4, 3]);
    for (const { first } of this.found.sequences) {
      const x = this.x(first - 0.5);
      line(c, x, Y.head.top, x, HEIGHT - 8);
    }
    c.setLineDash([]);
  }

  // IDR, CRA and BLA pictures, and RASL and RADL ones where there is room.
  drawPoints() {
    const { c, theme } = this;
    c.textAlign = "center";
    let free = -Infinity;
    for (const [i, it] of this.seen()) {
      const name = pointName(it.type);
      if (!name || (!isIrap(it.type) && this.cell < 30)) continue;
      c.fillStyle = theme[name] || theme.faint;
      if (isIrap(it.type)) c.fillRect(this.x(i) - Math.max(1, this.cell * 0.4), Y.head.bottom - 4, Math.max(2, this.cell * 0.8), 3);
      if (this.x(i) - free < 26) continue;
      c.fillText(name, Math.max(this.x(i), LEFT + 11), Y.head.top + 17);
      free = this.x(i);
    }
  }

  drawSizes() {
    const { c } = this, bar = Math.max(1, this.cell * 0.72);
    for (const [i, it] of this.seen()) {
      const high = Math.max(1, (Y.sizes.high - 8) * Math.sqrt(it.bytes / this.mostBytes));
      c.fillStyle = this.colour(it);
      c.fillRect(this.x(i) - bar / 2, Y.sizes.bottom - high, bar, high);
    }
  }

  arc(from, to, colour, width, dash = []) {
    const { c } = this, a = this.index.get(from.number), b = this.index.get(to.number);
    if (a === undefined || b === undefined) return;
    const x1 = this.x(a), x2 = this.x(b), reach = Math.min(this.reach * this.cell, 900);
    const top = Y.layers.top + 6 - (Y.arcs.high + 20) * Math.min(1, 0.15 + Math.abs(x1 - x2) / reach);
    c.strokeStyle = colour;
    c.lineWidth = width;
    c.setLineDash(dash);
    c.beginPath();
    c.moveTo(x1, this.layerY(from));
    c.bezierCurveTo(x1, top, x2, top, x2, this.layerY(to));
    c.stroke();
    c.setLineDash([]);
  }

  drawArcs() {
    if (this.cell < 1.5) return;
    this.c.globalAlpha = this.hover === null ? 0.3 : 0.1;
    for (const [, it] of this.seen()) for (const to of it.references) {
      const other = this.found.byNumber.get(to);
      if (other) this.arc(it, other, this.colour(it), 1);
    }
    this.c.globalAlpha = 1;
  }

  // Lines from a picture to its place in order of output, under which its order count is told.
  drawCrossing() {
    const { c, theme, step, found } = this;
    for (const [i, it] of this.seen()) {
      if (it.place === null) continue;
      c.strokeStyle = this.colour(it);
      c.globalAlpha = this.pinned === i ? 1 : this.hover === null ? 0.75 : 0.2;
      c.lineWidth = this.pinned === i ? 2 : 1;
      line(c, this.x(i), Y.crossing.top + 4, this.x(it.place), Y.crossing.bottom);
    }
    c.globalAlpha = 1;
    c.textAlign = "center";
    c.fillStyle = theme.faint;
    for (let place = Math.ceil(this.first / step) * step; place < Math.min(this.last, found.outputs.length); place += step)
      c.fillText(found.byNumber.get(found.outputs[place]).count, this.x(place), Y.places.top + 10);
  }

  // A dot a picture, in the lane of its sub-layer: full where it is output, empty where its flag hides it, a cross where it was dropped or
  // skipped, a ring around an IRAP picture.
  drawDots() {
    const { c, theme } = this, radius = Math.max(1.5, Math.min(6, this.cell * 0.36));
    for (const [i, it] of this.seen()) {
      const x = this.x(i), y = this.layerY(it);
      c.lineWidth = 1.3;
      c.strokeStyle = this.colour(it);
      c.fillStyle = it.end === "output" || it.end === null ? this.colour(it) : theme.paper;
      if (it.end === "dropped" || it.end === "skipped") {
        c.strokeStyle = theme.mark;
        line(c, x - radius, y - radius, x + radius, y + radius);
        line(c, x - radius, y + radius, x + radius, y - radius);
        continue;
      }
      c.beginPath();
      c.arc(x, y, radius, 0, 7);
      c.fill();
      c.stroke();
      if (!isIrap(it.type)) continue;
      c.strokeStyle = theme.ink;
      c.beginPath();
      c.arc(x, y, radius + 2, 0, 7);
      c.stroke();
    }
  }

  // How many pictures the buffer holds as each begins: named by its reference picture set, waiting, itself; and how many it can hold.
  drawBuffer() {
    const { c, theme, found } = this, { bottom, high } = Y.buffer, each = (high - 6) / (this.capacity + 1), bar = Math.max(1, this.cell * 0.72);
    for (const [i, it] of this.seen()) {
      if (!it.held || it.end === "skipped") continue;
      let y = bottom;
      for (const [count, colour] of [[it.held.references, theme.held], [it.held.waiting, theme.waiting], [1, this.colour(it)]]) {
        c.fillStyle = colour;
        c.fillRect(this.x(i) - bar / 2, y - count * each, bar, Math.max(0, count * each - (each > 4 && count ? 0.5 : 0)));
        y -= count * each;
      }
    }
    if (found.fromReport) return;
    c.strokeStyle = theme.mark;
    c.lineWidth = 1;
    found.sequences.forEach((it, k) => {
      const to = found.sequences[k + 1] ? found.sequences[k + 1].first : found.pictures.length, y = bottom - it.max_num_pics * each;
      line(c, this.x(it.first - 0.5), y, this.x(to - 0.5), y);
    });
  }

  drawPinned() {
    if (this.pinned === null || this.pinned >= this.found.pictures.length) return;
    const { c, theme, found } = this, it = found.pictures[this.pinned];
    c.fillStyle = theme.chosen;
    c.fillRect(this.x(this.pinned) - this.cell / 2, Y.head.top, this.cell, HEIGHT - 16);
    for (const from of this.usedBy.get(it.number) || []) this.arc(from, it, theme.faint, 1.3, [4, 3]);
    for (const to of it.references) if (found.byNumber.has(to)) this.arc(it, found.byNumber.get(to), this.colour(it), 2);
    for (const number of (it.sets || []).flat()) {
      const i = this.index.get(number);
      if (i === undefined) continue;
      c.strokeStyle = theme.ink;
      c.lineWidth = 1;
      c.strokeRect(this.x(i) - 8, this.layerY(found.pictures[i]) - 8, 16, 16);
    }
  }

  // Where units were refused.
  drawRefusals() {
    const { c, theme } = this;
    c.strokeStyle = theme.mark;
    c.lineWidth = 2;
    for (const { before } of this.found.refusals) {
      const x = this.x(before - 0.5);
      if (x < LEFT - 2 || x > this.width) continue;
      line(c, x, Y.head.bottom - 6, x, HEIGHT - 8);
    }
  }
}

// What a picture of this type is called in the head, if it is.
function pointName(type) {
  if (type === 19 || type === 20) return "IDR";
  if (type === 21) return "CRA";
  if (type >= 16 && type <= 18) return "BLA";
  return { 6: "RADL", 7: "RADL", 8: "RASL", 9: "RASL" }[type] || null;
}

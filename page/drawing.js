"use strict";
// What is drawn of a stream, over a surface: a canvas, or the text of an SVG.

// Colours that are told apart without red and green, in a light and in a dark form.
const THEMES = {
  light: { ink: "#1f2328", faint: "#6e7781", line: "#d0d7de", paper: "#ffffff", I: "#d55e00", P: "#0072b2", B: "#009e73", mark: "#a40e26",
    held: "#57606a", waiting: "#afb8c1", chosen: "rgba(9,105,218,0.12)", IDR: "#d55e00", CRA: "#aa4499", BLA: "#997700" },
  dark: { ink: "#e6edf3", faint: "#8d96a0", line: "#3d444d", paper: "#0d1117", I: "#ff9e64", P: "#56b4e9", B: "#3ddbac", mark: "#ff7b72",
    held: "#8d96a0", waiting: "#545d68", chosen: "rgba(88,166,255,0.20)", IDR: "#ff9e64", CRA: "#dd8fd8", BLA: "#e6c34a" },
};

// An SVG by the calls of a canvas that the drawing makes.
class SvgSurface {
  constructor(width, height, paper) {
    this.head = `<svg xmlns="http://www.w3.org/2000/svg" width="${width}" height="${height}" font-family="sans-serif" font-size="11">`
      + `<rect width="100%" height="100%" fill="${paper}"/>`;
    Object.assign(this, { parts: [], path: [], globalAlpha: 1, lineWidth: 1, dash: [], textAlign: "left" });
  }

  static round(it) { return Math.round(it * 10) / 10; }

  put(text) { this.parts.push(text); }

  fillRect(x, y, w, h) {
    const [a, b, c, d] = [x, y, w, h].map(SvgSurface.round);
    this.put(`<rect x="${a}" y="${b}" width="${c}" height="${Math.max(0, d)}" fill="${this.fillStyle}"${this.opacity("fill")}/>`);
  }

  strokeRect(x, y, w, h) {
    const [a, b, c, d] = [x, y, w, h].map(SvgSurface.round);
    this.put(`<rect x="${a}" y="${b}" width="${c}" height="${d}" fill="none" stroke="${this.strokeStyle}"/>`);
  }

  fillText(text, x, y) {
    const anchor = { left: "start", center: "middle", right: "end" }[this.textAlign], shown = String(text).replace(/[&<>]/g, it => `&#${it.charCodeAt(0)};`);
    this.put(`<text x="${SvgSurface.round(x)}" y="${SvgSurface.round(y) + 4}" text-anchor="${anchor}" fill="${this.fillStyle}">${shown}</text>`);
  }

  beginPath() { this.path = []; }
  moveTo(x, y) { this.path.push(`M${SvgSurface.round(x)} ${SvgSurface.round(y)}`); }
  lineTo(x, y) { this.path.push(`L${SvgSurface.round(x)} ${SvgSurface.round(y)}`); }
  bezierCurveTo(...all) { this.path.push("C" + all.map(SvgSurface.round).join(" ")); }

  arc(x, y, r) {
    const [a, b, c] = [x, y, r].map(SvgSurface.round);
    this.path.push(`M${a - c} ${b}A${c} ${c} 0 1 0 ${a + c} ${b}A${c} ${c} 0 1 0 ${a - c} ${b}`);
  }

  opacity(what) { return this.globalAlpha < 1 ? ` ${what}-opacity="${this.globalAlpha}"` : ""; }
  fill() { this.put(`<path d="${this.path.join("")}" fill="${this.fillStyle}"${this.opacity("fill")}/>`); }

  stroke() {
    const dash = this.dash.length ? ` stroke-dasharray="${this.dash.join(" ")}"` : "";
    this.put(`<path d="${this.path.join("")}" fill="none" stroke="${this.strokeStyle}" stroke-width="${this.lineWidth}"${dash}${this.opacity("stroke")}/>`);
  }

  setLineDash(dash) { this.dash = dash; }
  save() {}
  restore() {}
  rect() {}
  clip() {}
  text() { return this.head + this.parts.join("") + "</svg>\n"; }
}

// A straight line.
function line(c, x1, y1, x2, y2) {
  c.beginPath();
  c.moveTo(x1, y1);
  c.lineTo(x2, y2);
  c.stroke();
}

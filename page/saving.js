"use strict";
// What is shown, saved: the report, JSON, or an SVG of what is seen.

const SAVED = {
  report: { type: "text/plain", name: "report.txt", text: report },
  json: {
    type: "application/json", name: "pictures.json",
    text: found => JSON.stringify({
      sequences: found.sequences, refusals: found.refusals.map(it => ({ ...it, text: refusalText(it) })),
      pictures: found.pictures.map(({ held, handle, ...it }) => it),
    }, null, 1) + "\n",
  },
  svg: {
    type: "image/svg+xml", name: "pictures.svg",
    text: (found, timeline, theme, chosen) => {
      const surface = new SvgSurface(timeline.width, HEIGHT, theme.paper);
      timeline.draw(surface, theme, null, chosen);
      return surface.text();
    },
  },
};

// Gives a text to the browser to save, without a network.
function save(kind, ...what) {
  const { type, name, text } = SAVED[kind], link = document.createElement("a");
  link.href = URL.createObjectURL(new Blob([text(...what)], { type }));
  link.download = name;
  link.click();
  URL.revokeObjectURL(link.href);
}

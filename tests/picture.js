// Runs the script of a page of tools/picture where there is no browser: on a canvas of pixels alone, and what it tells at a place.
// node tests/picture.js PAGE [PLACE] prints what was drawn, how many pixels have a colour, and what is told at PLACE, as
// line=3&at=200000; on standard error how long the first picture took and one after it.
"use strict";
const fs = require("fs");
const page = fs.readFileSync(process.argv[2], "utf8");
const script = page.slice(page.indexOf("<script>") + 8, page.indexOf("</script>"));
let pixels = new Uint8ClampedArray(0);
const own = {
  createImageData: (wide, high) => ({ data: new Uint8ClampedArray(4 * wide * high) }),
  putImageData: image => { pixels = image.data; },
};
const pen = new Proxy({}, { get: (_, name) => own[name] ?? (() => {}), set: () => true });
const listeners = {};
const element = name => ({
  style: {}, dataset: {}, offsetHeight: 40, offsetWidth: 100, textContent: "", innerHTML: "", getContext: () => pen,
  addEventListener: (event, heard) => { listeners[`${name} ${event}`] = heard; },
});
const elements = {};
const of = name => (elements[name] ??= element(name));
globalThis.document = { getElementById: of, querySelector: of };
globalThis.window = {
  innerWidth: 1400, innerHeight: 900, devicePixelRatio: 1, addEventListener: () => {}, location: { hash: `#${process.argv[3] ?? ""}` },
};
globalThis.requestAnimationFrame = heard => heard();
const began = process.hrtime.bigint();
(0, eval)(`(() => {${script}})()`);
const seconds = Number(process.hrtime.bigint() - began) / 1e9;
const { extents, regions, marks } = elements.stage.dataset;
let coloured = 0;
for (let at = 3; at < pixels.length; at += 4) coloured += pixels[at] !== 0;
const told = elements.told.textContent;
const again = process.hrtime.bigint();
listeners["over wheel"]({ preventDefault() {}, deltaY: -1, offsetX: 700, offsetY: 100, shiftKey: false });
console.log(`extents ${extents} regions ${regions} marks ${marks} coloured ${coloured > 0 ? "yes" : "no"}`);
console.log(told);
console.error(`first ${seconds.toFixed(2)} s, again ${(Number(process.hrtime.bigint() - again) / 1e9).toFixed(2)} s`);

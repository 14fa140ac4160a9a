// Sixty turns of the wheel and drags on a page of tools/picture, and how long the picture takes after each: put behind the page's
// own script, as tests/tools does. It writes the median and the longest, in milliseconds, to the page's data, and how many regions
// were drawn at most.
"use strict";
const steps = 60, times = [];
let most = 0;
for (let step = 0; step < steps; step++) {
  const at = { clientX: LEFT + 500, clientY: over.getBoundingClientRect().top + 0.8 * split, bubbles: true, cancelable: true };
  const began = performance.now();
  if (step % 5 < 4) over.dispatchEvent(new WheelEvent("wheel", { ...at, deltaY: step < 40 ? -1 : 1, shiftKey: step % 2 === 1 }));
  else for (const [name, moved] of [["mousedown", 0], ["mousemove", 40 * (-1) ** step], ["mouseup", 0]])
    over.dispatchEvent(new MouseEvent(name, { ...at, clientX: at.clientX + moved }));
  draw();
  // (a pixel that is read back is one that was drawn)
  base.getContext("2d").getImageData(LEFT, 1, 1, 1);
  times.push(performance.now() - began);
  most = Math.max(most, Number(document.getElementById("stage").dataset.regions));
}
times.sort((one, other) => one - other);
Object.assign(document.getElementById("stage").dataset, { median: Math.round(times[steps / 2]), longest: Math.round(times[steps - 1]), most });

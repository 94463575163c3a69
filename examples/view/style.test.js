"use strict";

/** `node --test examples/view`: texts and bars stand out from their ground, on light and dark screens. */
const test = require("node:test");
const assert = require("node:assert/strict");
const fs = require("node:fs");
const path = require("node:path");

const STYLE = fs.readFileSync(path.join(__dirname, "style.css"), "utf8");
const DARK = STYLE.indexOf("prefers-color-scheme: dark");
const TEXTS = [["ink", "paper"], ["muted", "paper"], ["random", "paper"], ["fault", "paper"], ["ink", "row"], ["muted", "track"]];
const BARS = [["low", "track"], ["threshold", "paper"], ["low", "paper"], ["rival", "paper"], ["random", "paper"], ["low", "open"]];

/** The colours of a palette by their names. */
const colours = (style) => Object.fromEntries([...style.matchAll(/--(\w+): #([0-9a-f]{6});/g)].map((found) => [found[1], found[2]]));

/** The relative luminance and the contrast of WCAG 2. */
function luminance(colour) {
  const parts = [0, 1, 2].map((at) => parseInt(colour.slice(2 * at, 2 * at + 2), 16) / 255);
  const linear = parts.map((part) => (part <= 0.04045 ? part / 12.92 : ((part + 0.055) / 1.055) ** 2.4));
  return [0.2126, 0.7152, 0.0722].reduce((sum, weight, at) => sum + weight * linear[at], 0);
}

function contrast(one, other) {
  const [lesser, greater] = [luminance(one), luminance(other)].sort((a, b) => a - b);
  return (greater + 0.05) / (lesser + 0.05);
}

for (const [name, style] of [["light", STYLE.slice(0, DARK)], ["dark", STYLE.slice(DARK)]]) {
  test(`texts and bars stand out from their ground: ${name}`, () => {
    const palette = colours(style);
    assert.equal(Object.keys(palette).length, 12);
    assert.equal(luminance(palette.paper) > 0.5, name === "light");
    for (const [text, ground] of TEXTS) assert.ok(contrast(palette[text], palette[ground]) >= 4.5, `${text} on ${ground}`);
    for (const [bar, ground] of BARS) assert.ok(contrast(palette[bar], palette[ground]) >= 3, `${bar} on ${ground}`);
  });
}

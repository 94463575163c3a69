"use strict";

/** `node --test examples/view`: what the page says of a certificate, drawn into elements that only keep their texts. */
const test = require("node:test");
const assert = require("node:assert/strict");
const fs = require("node:fs");
const path = require("node:path");
const vm = require("node:vm");

/** An element as far as the page fills it. */
class Element {
  constructor(name) {
    Object.assign(this, { name, attributes: {}, children: [] });
  }

  setAttribute(name, value) {
    this.attributes[name] = String(value);
  }

  append(...children) {
    for (const child of children) this.children.push(child instanceof Element ? child : String(child));
  }

  get text() {
    return this.children.map((child) => (child instanceof Element ? child.text : child)).join("");
  }

  /** How many elements it has, itself among them. */
  get size() {
    return this.children.reduce((sum, child) => sum + (child instanceof Element ? child.size : 0), 1);
  }

  /** The elements in it that have an attribute of a value. */
  all(name, value) {
    const inside = this.children.filter((child) => child instanceof Element);
    return inside.flatMap((child) => [...(child.attributes[name] === value ? [child] : []), ...child.all(name, value)]);
  }
}

const document = { createElement: (name) => new Element(name), createElementNS: (_, name) => new Element(name) };
const read = (name) => fs.readFileSync(path.join(__dirname, name), "utf8");
// The scripts of the page in their order, but for the one that takes its controls.
const FILES = [...read("index.html").matchAll(/<script src="(\w+\.js)">/g)].map((found) => found[1]).filter((name) => name !== "page.js");
const { readOutcomes, picture, compare } = vm.runInNewContext(
  `${FILES.map(read).join("\n")}\n({ readOutcomes: TopkCertificate.readOutcomes, picture: TopkPicture.picture, compare: TopkCompare.compare });`,
  { document },
);

const draw = (text) => picture(readOutcomes(text)[0], 800);
const texts = (drawn, name, value) => drawn.all(name, value).map((element) => element.text);

const FIRST_ROWS = "stop depth 1 sorted 2 random 2 cost 4\ns A 1 900\ns B 2 700\nr B 1 500\nr A 2 800\nend\n";
const answered = (algorithm, lines) => `certificate 1\nquery top 1 by sum(A,B) using ${algorithm}\ncount 3\nanswer 2 1500 1500\n${lines}`;

test("a guarantee is said beside the answer", () => {
  const drawn = draw(answered("theta 8/7", `guarantee 8 7\n${FIRST_ROWS}`));
  assert.deepEqual(texts(drawn, "data-figure", "guarantee"), [
    "Guaranteed: no object outside is better by more than the factor 8/7 (at most 1.143 times as much)."]);
  // An object that no row has shown may have 900 + 700, which is no more than 1500 times 8/7.
  assert.match(texts(drawn, "class", "answers")[0], /can have more than 1,600 .* that is within the guarantee/);
  assert.match(texts(drawn, "class", "course")[0], /the k-th aggregate, times 8\/7, reaches it/);
  assert.deepEqual(texts(drawn, "data-figure", "enough"), ["enough from 1,400"]);
  assert.equal(drawn.all("class", "met").length, 1);
});

test("an early stop says what it guarantees", () => {
  const rows = [
    [`guarantee 1600 1500\n${FIRST_ROWS}`, /by more than the factor 1,600\/1,500 \(at most 1.067 times as much\)/, /within the guarantee/],
    [`guarantee 1 1\n${FIRST_ROWS}`, /no object outside is better\./, /don't bear out the guarantee/],
    [`guarantee 1 0\n${FIRST_ROWS}`, /Nothing is guaranteed/, /it may be better/],
  ];
  for (const [lines, promise, verdict] of rows) {
    const drawn = draw(answered("early 1", lines));
    assert.match(texts(drawn, "data-figure", "guarantee")[0], promise);
    assert.match(texts(drawn, "class", "answers")[0], verdict);
    assert.match(texts(drawn, "class", "course")[0], /once it has reached depth 1/);
  }
});

test("no guarantee is said of an algorithm that has none", () => {
  for (const algorithm of ["ta", "nra", "ca", "fa", "taz"]) {
    const drawn = draw(answered(algorithm, FIRST_ROWS));
    assert.deepEqual(texts(drawn, "data-figure", "guarantee"), []);
    assert.match(texts(drawn, "class", "answers")[0], /these accesses don't fix it/);
    assert.match(texts(drawn, "class", "course")[0], /The run stops where/);
  }
});

test("a list of random accesses alone is said to be one", () => {
  const lines = "stop depth 3 sorted 3 random 3 cost 6\ns A 1 900\nr B 1 500\ns A 2 800\nr B 2 700\ns A 3 100\nr B 3 600\nend\n";
  const drawn = draw(answered("taz", lines));
  assert.deepEqual(texts(drawn, "scope", "col").filter((text) => /^[AB]/.test(text)), ["A", "B random access alone"]);
  assert.deepEqual(texts(drawn, "data-figure", "threshold"), ["threshold 1,000,900", "threshold 1,000,800", "threshold 1,000,100"]);
  assert.deepEqual(texts(drawn, "data-figure", "counts"), ["1 seen", "2 seen", "3 seen"]);
  assert.deepEqual(texts(drawn, "class", "unread"), ["read whole", "3 of 3 not read"]);
  assert.match(texts(drawn, "class", "answers")[0], /more than 1,400 \(object 1\), and each answer has at least 1,500/);
  assert.match(texts(drawn, "class", "course")[0], /1,000,000, is taken for the last one/);
});

test("refusals and versions are said in words", () => {
  assert.match(draw("refused 2 BadTheta 7 8\n").text, /The factor 7\/8 is below 1\./);
  assert.match(draw("refused Figure 5\n").text, /there is no verdict\. Line 5 states a figure/);
  assert.match(draw("refused node UnknownList A\n").text, /The catalog has no list A/);
  const versioned = answered("ta", FIRST_ROWS).replace("answer", "version A 7\nversion B 9\nanswer");
  assert.match(draw(versioned).text, /A is at version 7, B is at version 9\./);
});

/** A certificate of many accesses: `k` answers, rows of so many lists down to a depth, and random accesses at each depth and at the last. */
function long({ k, lists, depth, asks, last }) {
  const names = Array.from({ length: lists }, (_, list) => `L${list}`);
  const lines = [];
  for (let place = 1; place <= depth; place += 1) {
    for (const name of names) lines.push(`s ${name} ${place} ${1_000_000 - place}`);
    for (let ask = 0; ask < (place === depth ? last : asks); ask += 1) lines.push(`r ${names[ask % lists]} ${1 + (ask % depth)} ${1_000_000 - 1 - (ask % depth)}`);
  }
  const answers = Array.from({ length: k }, (_, place) => `answer ${place + 1} 5 6`);
  const head = [`query top ${k} by sum(${names}) using ca`, "count 200000", ...answers, "stop depth 1 sorted 1 random 1 cost 1"];
  return ["certificate 1", ...head, ...lines, "end", ""].join("\n");
}

test("a picture has at most 5,000 elements, and says what it leaves out", () => {
  for (const shape of [{ k: 3000, lists: 8, depth: 2000, asks: 20, last: 9000 }, { k: 200, lists: 1, depth: 3000, asks: 0, last: 9 }]) {
    const text = long(shape);
    const [one] = readOutcomes(text);
    const drawn = picture(one, 800);
    assert.ok(drawn.size < 4800, String(drawn.size));
    const pair = compare([one, readOutcomes(text)[0]], 800, new Map());
    assert.ok(pair.size < 4800, String(pair.size));
    assert.match(texts(drawn, "class", "gap")[0], new RegExp(`^${(shape.k - 60).toLocaleString("en")} more$`));
    assert.ok(texts(drawn, "class", "gap").some((said) => /^depths [0-9,]+ to [0-9,]+ aren't drawn$/.test(said)));
  }
  const drawn = draw(long({ k: 1, lists: 2, depth: 2, asks: 3, last: 500 }));
  assert.deepEqual(texts(drawn, "class", "more"), ["◆ and 247 more", "◆ and 247 more"]);
});

test("objects are shown by their names", () => {
  const names = new Map([[1, "Astoria"], [2, "<b>Bristol</b>"]]);
  const drawn = picture(readOutcomes(answered("nra", FIRST_ROWS))[0], 800, names);
  const heads = (one) => one.all("class", "answers")[0].all("scope", "row").map((head) => head.text);
  assert.deepEqual(heads(drawn), ["<b>Bristol</b>"]);
  assert.deepEqual(texts(drawn, "class", "row"), ["Astoria has 900", "★ <b>Bristol</b> has 700"]);
  assert.equal(drawn.all("title", "object 1").length, 2);
  assert.match(texts(drawn, "class", "answers")[0], /an object that no access has named/);
  assert.deepEqual(heads(picture(readOutcomes(answered("nra", FIRST_ROWS))[0], 800)), ["2"]);
});

test("two certificates are set against each other, and their charts drawn alike", () => {
  const pair = [readOutcomes(answered("ta", FIRST_ROWS))[0], readOutcomes(answered("nra", "stop depth 1 sorted 2 random 0 cost 2\ns A 1 900\ns B 2 700\nend\n"))[0]];
  const drawn = compare(pair, 500, new Map());
  const figures = (title) => [1, 2].map((number) => texts(drawn, "data-figure", `${title} ${number}`)[0]);
  assert.deepEqual(["cost", "depth", "rows read", "random accesses", "grades known"].map(figures), [["4", "2"], ["1", "1"], ["2", "2"], ["2", "0"], ["4", "2"]]);
  assert.deepEqual(texts(drawn, "data-figure", "both"), ["Both name the same object."]);
  assert.equal(drawn.all("role", "img").length, 2);
  const axes = drawn.all("role", "img").map((chart) => chart.all("class", "axis").map((axis) => axis.attributes.y1).join());
  assert.equal(axes[0], axes[1]);
  const other = { ...pair[1], answers: [{ object: 3, low: 1n, high: 2n }] };
  assert.deepEqual(texts(compare([pair[0], other], 500, new Map()), "data-figure", "both"), [
    "Of their objects 0 are the same. The first alone names object 2, the second alone object 3."]);
  assert.deepEqual(texts(compare([pair[0], { ...pair[1], count: 4 }], 500, new Map()), "data-figure", "both"), ["The two answer different questions."]);
  assert.match(compare([pair[0], readOutcomes("refused 2 NoRandom quiet\n")[0]], 500, new Map()).text, /Refused: there is no answer/);
});

test("a table that has no room is drawn as blocks, each with the name of its column", () => {
  const certificate = readOutcomes(answered("ta", FIRST_ROWS))[0];
  const blocks = (width) => picture(certificate, width).all("class", "scroll blocks").length;
  assert.deepEqual([blocks(336), blocks(600), blocks(800)], [2, 1, 0]);
  const cells = picture(certificate, 336).all("role", "cell").map((cell) => cell.attributes["data-label"]).filter((label) => label !== undefined);
  assert.deepEqual(cells, ["least", "greatest", "A", "B", "at its end", "A", "B"]);
});

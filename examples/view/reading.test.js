"use strict";

/** `node --test examples/view`: texts and files that come in slices. */
const test = require("node:test");
const assert = require("node:assert/strict");
const Certificate = require("./certificate.js");
const Slices = require("./slices.js");
const Examples = require("./examples.js");
const { KeyReader } = require("./keys.js");

/** What a reader makes of a text that comes in slices of so many characters. */
function inSlices(reader, text, size) {
  for (let at = 0; at < text.length; at += size) reader.feed(text.slice(at, at + size));
  return reader.end();
}

const TEXTS = [
  Examples.two,
  Examples.one.replaceAll("\n", "\r\n"),
  `${Examples.one}refused 2 NoRandom quiet\nhello\n${Examples.one.replace("end\n", "")}${Examples.one}\n\n\r\n\n`,
  Examples.one.replace("s A 2 800", "s C 2 800"),
  Examples.one.slice(0, -5),
  "\n\nrefused words",
  "",
  "\n",
];

test("a text has the same outcomes in slices of any size", () => {
  for (const text of TEXTS) {
    const whole = Certificate.readOutcomes(text);
    for (const size of [1, 2, 3, 7, 50, 1000]) assert.deepEqual(inSlices(new Certificate.OutcomeReader(), text, size), whole, `${size} of ${text}`);
  }
  assert.deepEqual(Certificate.readOutcomes(TEXTS[2]).map((outcome) => outcome.kind), ["certificate", "refusal", "fault", "fault", "certificate"]);
});

test("a file is read in slices, and its progress told", async () => {
  const text = Examples.two + "s".repeat(700_000);
  const shares = [];
  const outcomes = await Slices.read(new Blob([text]), new Certificate.OutcomeReader(), (share) => shares.push(share), () => true);
  assert.deepEqual(outcomes, Certificate.readOutcomes(text));
  assert.ok(shares.length >= 3 && shares.every((share, place) => share >= (shares[place - 1] ?? 0)), String(shares));
  assert.equal(await Slices.read(new Blob([text]), new Certificate.OutcomeReader(), () => {}, () => false), null);
});

test("long work yields to the page, and is given up where it isn't wanted", async () => {
  function* work() {
    // Each piece takes longer than a slice.
    for (let piece = 0; piece < 4; piece += 1) {
      const until = performance.now() + 30;
      while (performance.now() < until);
      yield piece / 4;
    }
    return "done";
  }
  const shares = [];
  assert.equal(await Slices.run(work(), (share) => shares.push(share), () => true), "done");
  assert.deepEqual(shares, [0, 0.25, 0.5, 0.75]);
  assert.equal(await Slices.run(work(), () => {}, () => false), null);
  assert.equal(Slices.drained(work()), "done");
});

test("keys give objects their names, also those in quotes", () => {
  const text = 'object,key\r\n1,Astoria\n2,"Bristol, ""old""\nhouse"\n\n4294967295,\n3,last';
  for (const size of [1, 5, 1000]) {
    const { names, wrong } = inSlices(new KeyReader(), text, size);
    assert.equal(wrong, null);
    assert.deepEqual([...names], [[1, "Astoria"], [2, 'Bristol, "old"\nhouse'], [4_294_967_295, ""], [3, "last"]]);
  }
  assert.deepEqual([...inSlices(new KeyReader(), "object,key,price\n1,Astoria,90\n", 3).names], [[1, "Astoria"]]);
});

test("what is no file of keys is told by its first wrong record", () => {
  const rows = [
    ["", /empty/],
    ["certificate 1\n", /Record 1 .* header/],
    ["object,key\n1,a\nx,b\n", /Record 3 .* object and its key/],
    ["object,key\n4294967296,a\n", /Record 2/],
    ["object,key\n1,a,b\n", /Record 2/],
    ["object,key\n1,a\n1,b\nx\n", /Record 3 .* names object 1 anew/],
    ['object,key\n1,"a\n', /quoted field/],
  ];
  for (const [text, wrong] of rows) assert.match(inSlices(new KeyReader(), text, 4).wrong, wrong);
});

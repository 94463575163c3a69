"use strict";

/** `node --test examples/view`: the sentences of refusals.js, whether they are all there, and the form in which others read them. */
const test = require("node:test");
const assert = require("node:assert/strict");
const fs = require("node:fs");
const path = require("node:path");
const Refusals = require("./sentences.js");
const ENTRIES = require("./refusals.js");

const ROOT = path.join(__dirname, "..", "..");
const read = (...parts) => fs.readFileSync(path.join(ROOT, ...parts), "utf8");
const KINDS = ["query", "command", "judge", "inconsistency", "verdict", "status"];
const keysOf = (kind) => Object.keys(ENTRIES).filter((key) => ENTRIES[key].kind === kind);

test("from its first brace to its last the file is JSON, of the same entries", () => {
  const text = read("examples", "view", "refusals.js");
  assert.deepEqual(JSON.parse(text.slice(text.indexOf("{"), text.lastIndexOf("}") + 1)), ENTRIES);
});

test("each entry has a kind, its fields, a sentence and a cure, which name no other field", () => {
  for (const [key, entry] of Object.entries(ENTRIES)) {
    assert.deepEqual(Object.keys(entry), ["kind", "fields", "sentence", "cure"], key);
    assert.ok(KINDS.includes(entry.kind), key);
    const used = [...`${entry.sentence} ${entry.cure}`.matchAll(/\{(\w*)\}/g)].map((found) => found[1]);
    assert.deepEqual(used.filter((name) => !entry.fields.includes(name)), [], key);
    for (const text of [entry.sentence, entry.cure]) assert.match(text, /^[A-Z`].*[.]$/, key);
  }
});

test("each refusal of a query line has an entry with as many fields", () => {
  const body = read("crates", "cert_text", "src", "refusal.rt").match(/pub enum Refusal \{([^]*?)\n\}/)[1];
  const found = [...body.matchAll(/^ {4}([A-Z]\w*) \{([^}]*)\}/gm)];
  const wanted = found.map(([, name, fields]) => [name, [...fields.matchAll(/(\w+): u/g)].map((field) => field[1])]);
  assert.ok(wanted.length > 20);
  assert.deepEqual(Object.fromEntries(keysOf("query").map((key) => [key, ENTRIES[key].fields])), Object.fromEntries(wanted));
});

test("each refusal of judge, each kind and each exit status has an entry", () => {
  const refusals = read("crates", "cert_judge", "src", "refusal.rt");
  assert.deepEqual(keysOf("judge"), [...refusals.matchAll(/RefusalLine::\w+\(\s*b"(\w+)"/g)].map((found) => found[1]));
  const kinds = read("crates", "access_log", "src", "kinds.rt");
  assert.deepEqual(keysOf("inconsistency"), [...kinds.matchAll(/^(?:pub\(crate\) )?const \w+: u8 = ([0-9]);/gm)].map((found) => `kind ${found[1]}`));
  assert.deepEqual(keysOf("verdict"), ["fixes", "beaten"]);
  const statuses = [...read("crates", "command_line", "src", "status.rt").matchAll(/^ {4}[A-Z]\w+ = ([0-9]+),/gm)].map((found) => `status ${found[1]}`);
  assert.ok(statuses.length >= 11);
  assert.deepEqual(keysOf("status"), statuses);
});

test("each refusal stands in the manual page, and each line that the program is known to refuse with has a sentence", () => {
  const manual = read("docs", "topk.1");
  const names = [...keysOf("query"), ...keysOf("command")].flatMap((key) => key.split(" "));
  assert.deepEqual(names.filter((name) => !new RegExp(`\\b${name}\\b`).test(manual)), []);
  const cases = path.join(ROOT, "tests", "cases");
  const outputs = fs.readdirSync(cases).map((name) => path.join(cases, name, "output")).filter((name) => fs.existsSync(name));
  const lines = outputs.flatMap((name) => fs.readFileSync(name, "utf8").split("\n"));
  const refused = lines.filter((line) => line.startsWith("refused ")).map((line) => line.split(" ").slice(1));
  assert.ok(refused.length > 10);
  for (const words of refused) {
    const [name, ...fields] = /^[0-9]/.test(words[0]) ? words.slice(1) : words;
    assert.notEqual(Refusals.explained(name, fields).cure, "", words.join(" "));
  }
});

test("sentences and cures have the fields of the line", () => {
  assert.deepEqual(Refusals.explained("KAboveCount", ["5", "3"]), {
    kind: "query", sentence: "The query asks for 5 objects, and the lists have 3.", cure: "Ask for at most 3." });
  assert.match(Refusals.meaning("catalog", ["SameName", "4"]), /its record 4 has the name of a list above it/);
  assert.match(Refusals.meaning("Inconsistent", ["5", "6"]), /up to number 5, the first such\. The access gives its object another grade/);
  assert.match(Refusals.meaning("words", []), /no command/);
  assert.equal(Refusals.explained("constructor", []).cure, "");
});

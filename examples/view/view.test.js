"use strict";

/** `node --test examples/view`: the logic of the page against texts that were worked out by hand. */
const test = require("node:test");
const assert = require("node:assert/strict");
const fs = require("node:fs");
const path = require("node:path");
const Query = require("./query.js");
const Certificate = require("./certificate.js");
const Course = require("./course.js");
const Refusals = require("./sentences.js");
const Examples = require("./examples.js");

const ROOT = path.join(__dirname, "..", "..");
const CRATES = path.join(ROOT, "crates");
const read = (...parts) => fs.readFileSync(path.join(CRATES, ...parts), "utf8");

/** The only outcome of a text. */
function only(text) {
  const outcomes = Certificate.readOutcomes(text);
  assert.equal(outcomes.length, 1);
  return outcomes[0];
}

/** The certificate that docs/CERTIFICATE.md explains. */
const TWO_LISTS = `certificate 1
query top 1 by sum(A,B) using ta
count 3
answer 2 1500 1500
stop depth 2 sorted 4 random 3 cost 7
s A 1 900
s B 2 700
r B 1 500
r A 2 800
s A 2 800
s B 3 600
r A 3 100
end
`;

/** An answer whose exact sum stays open: object 1 has 900 in A and at most the 200 that B has come down to. */
const OPEN = `certificate 1
query top 1 by sum(A,B) using nra
count 3
answer 1 900 1100
stop depth 2 sorted 4 random 0 cost 4
s A 1 900
s B 2 300
s A 2 100
s B 3 200
end
`;

test("a certificate is read line by line", () => {
  const { kind, line, query, count, answers, stop, accesses } = only(TWO_LISTS);
  assert.deepEqual([kind, line, count, query.k, query.algorithm, query.names], ["certificate", 1, 3, 1, "ta", ["A", "B"]]);
  assert.deepEqual(answers, [{ object: 2, low: 1500n, high: 1500n }]);
  assert.deepEqual(stop, { depth: 2, sorted: 4, random: 3, cost: 7n });
  assert.deepEqual(accesses.get(2), { kind: "random", list: 1, object: 1, grade: 500 });
  assert.equal(accesses.length, 7);
});

test("the threshold falls until the k-th aggregate meets it", () => {
  const { depth, stages } = Course.course(only(TWO_LISTS));
  assert.equal(depth, 2);
  assert.deepEqual(stages.map((stage) => stage.bottoms), [[900n, 700n], [800n, 600n]]);
  assert.deepEqual(stages.map((stage) => stage.threshold), [1600n, 1400n]);
  assert.deepEqual(stages.map((stage) => stage.kthLow), [1500n, 1500n]);
  assert.deepEqual(stages.map((stage) => stage.asked.map(({ count, first }) => [count, first.map((access) => access.object)])), [
    [[1, [2]], [1, [1]]], [[1, [3]], [0, []]]]);
  assert.deepEqual(stages[1].rows.map((row) => [row.object, row.grade]), [[2, 800], [3, 600]]);
});

test("without random access the k-th low has to meet the greatest high of the others", () => {
  const { stages } = Course.course(only(OPEN));
  assert.deepEqual(stages.map((stage) => stage.threshold), [1200n, 300n]);
  assert.deepEqual(stages.map((stage) => stage.kthLow), [900n, 900n]);
  // At depth 1 an unnamed object and object 2 may both have 900 + 300; at depth 2 object 2 has 100 + 300.
  assert.deepEqual(stages.map((stage) => stage.rival), [{ object: null, high: 1200n }, { object: 2, high: 400n }]);
});

test("fewer objects than k have no k-th low", () => {
  const head = "certificate 1\nquery top 2 by A using nra\ncount 2\nanswer 7 5 5\nanswer 8 3 3\nstop depth 2 sorted 2 random 0 cost 2\n";
  const text = `${head}s A 7 5\ns A 8 3\nend\n`;
  const { stages } = Course.course(only(text));
  assert.deepEqual(stages.map((stage) => stage.kthLow), [null, 3n]);
  assert.deepEqual(stages.map((stage) => stage.rival), [{ object: null, high: 5n }, null]);
});

test("a list that is read ahead of another leaves the greatest grade as the other's bottom", () => {
  const head = "certificate 1\nquery top 1 by sum(A,B) using nra\ncount 9\nanswer 1 900 1600\nstop depth 2 sorted 3 random 0 cost 3\n";
  const text = `${head}s A 1 900\ns A 2 800\ns B 2 700\nend\n`;
  const { stages } = Course.course(only(text));
  assert.deepEqual(stages.map((stage) => stage.threshold), [1_000_900n, 1500n]);
  assert.deepEqual(stages[0].rows.map((row) => row.object), [1, 2]);
  assert.deepEqual(stages[1].rows.map((row) => row?.object ?? null), [2, null]);
});

test("the sums at the end, and what may still be outside", () => {
  const two = Course.figures(only(TWO_LISTS));
  assert.deepEqual([two.depth, two.sorted, two.random, two.cost, two.grades, two.known], [2, 4, 3, 7n, 6, 6]);
  assert.deepEqual([two.leastLow, two.rival], [1500n, { object: 1, high: 1400n }]);
  const open = Course.figures(only(OPEN));
  assert.deepEqual([open.depths, open.grades, open.known, open.leastLow, open.rival], [[2, 2], 6, 4, 900n, { object: 2, high: 400n }]);
  assert.deepEqual([two.differences, open.differences], [[], []]);
});

/** Text of a certificate over the two lists of three objects: A 1:900 2:800 3:100, B 2:700 3:600 1:500. */
function certificate(query, ...lines) {
  return `certificate 1\nquery ${query}\ncount 3\n${lines.join("\n")}\nend\n`;
}

const FIRST_ROWS = ["s A 1 900", "s B 2 700", "r B 1 500", "r A 2 800"];
const FIRST_STOP = "stop depth 1 sorted 2 random 2 cost 4";
const WITHIN = certificate("top 1 by sum(A,B) using theta 8/7", "answer 2 1500 1500", "guarantee 8 7", FIRST_STOP, ...FIRST_ROWS);
const EARLY = certificate("top 1 by sum(A,B) using early 1", "answer 2 1500 1500", "guarantee 1600 1500", FIRST_STOP, ...FIRST_ROWS);

test("an answer within a factor comes with its guarantee", () => {
  const { query, guarantee, answers } = only(WITHIN);
  assert.deepEqual([query.algorithm, query.factor, query.depth], ["theta", { p: 8n, q: 7n }, null]);
  assert.deepEqual([guarantee, answers.length], [{ p: 8n, q: 7n }, 1]);
  const [stage] = Course.course(only(WITHIN)).stages;
  // 7 times 1600 is 11200: it stops from 1400 on.
  assert.deepEqual([stage.threshold, stage.kthLow, stage.enough, stage.mayStop, stage.rival], [1600n, 1500n, 1400n, true, null]);
  assert.equal(Course.course(only(TWO_LISTS)).stages[0].mayStop, false);
  assert.deepEqual(Course.figures(only(WITHIN)).differences, []);
});

test("the factor that is enough is rounded up", () => {
  const [stage] = Course.course(only(WITHIN.replaceAll("8/7", "16/15").replace("8 7", "16 15"))).stages;
  assert.deepEqual([stage.enough, stage.mayStop], [1500n, true]);
  // 10000 times 1500 is 1600 times 9375.
  const [next] = Course.course(only(WITHIN.replaceAll("8/7", "10000/9376").replace("8 7", "10000 9376"))).stages;
  assert.deepEqual([next.enough, next.mayStop], [1501n, false]);
});

test("an early stop guarantees the threshold over the least low", () => {
  const { query, guarantee } = only(EARLY);
  assert.deepEqual([query.algorithm, query.factor, query.depth, guarantee], ["early", null, 1, { p: 1600n, q: 1500n }]);
  assert.deepEqual(Course.course(only(EARLY)).stages.map((stage) => [stage.mayStop, stage.enough]), [[true, null]]);
  assert.deepEqual(Course.figures(only(EARLY)).differences, []);
  // Where the threshold is reached the answer is a best one, and a least low of 0 says nothing.
  const reached = TWO_LISTS.replace("using ta", "using early 5").replace("stop", "guarantee 1 1\nstop");
  assert.deepEqual(Course.figures(only(reached)).differences, []);
  assert.deepEqual(Course.course(only(reached)).stages.map((stage) => stage.mayStop), [false, true]);
  const none = certificate("top 1 by min(A,B) using early 1", "answer 1 0 0", "guarantee 1 0", "stop depth 1 sorted 2 random 2 cost 4",
    "s A 1 900", "s B 2 700", "r B 1 0", "r A 2 0");
  assert.deepEqual(Course.figures(only(none)).differences, []);
});

test("a guarantee that isn't that of the accesses is told", () => {
  for (const text of [WITHIN.replace("guarantee 8 7", "guarantee 9 7"), EARLY.replace("1600 1500", "1 1"), EARLY.replace("1600 1500", "16 15")]) {
    assert.deepEqual(Course.figures(only(text)).differences.map((said) => said.split(":")[0]), ["guarantee"]);
  }
});

test("a guarantee stands behind the answers, under the algorithms that have one", () => {
  const line = "guarantee 1 1\n";
  const rows = [
    [WITHIN.replace("guarantee 8 7\n", ""), 5, FIRST_STOP],
    [EARLY.replace("guarantee 1600 1500\n", ""), 5, FIRST_STOP],
    [TWO_LISTS.replace("stop", `${line}stop`), 5, "guarantee 1 1"],
    [WITHIN.replace("answer", `${line}answer`), 5, "answer 2 1500 1500"],
    [WITHIN.replace("s A", `${line}s A`), 7, "guarantee 1 1"],
    [EARLY.replace("1600 1500", "01 1"), 5, "guarantee 01 1"],
    [EARLY.replace("stop", `${line}stop`), 6, "guarantee 1 1"],
  ];
  for (const [text, at, found] of rows) {
    const [outcome] = Certificate.readOutcomes(text);
    assert.deepEqual([outcome.kind, outcome.at, outcome.found], ["fault", at, found], text);
  }
});

test("a list that can't be read in order has random accesses alone", () => {
  const text = certificate("top 1 by sum(A,B) using taz", "answer 2 1500 1500", "stop depth 3 sorted 3 random 3 cost 6",
    "s A 1 900", "r B 1 500", "s A 2 800", "r B 2 700", "s A 3 100", "r B 3 600");
  const { depth, stages } = Course.course(only(text));
  assert.equal(depth, 3);
  assert.deepEqual(stages.map((stage) => stage.threshold), [1_000_900n, 1_000_800n, 1_000_100n]);
  assert.deepEqual(stages.map((stage) => [stage.kthLow, stage.seen, stage.mayStop]), [[1400n, 1, false], [1500n, 2, false], [1500n, 3, true]]);
  const figures = Course.figures(only(text));
  assert.deepEqual([figures.depths, figures.depth, figures.known, figures.rival], [[3, 0], 3, 6, { object: 1, high: 1400n }]);
  assert.deepEqual(figures.differences, []);
  // A weight of 0 makes the other list's grade nothing: the threshold is reached.
  const one = certificate("top 1 by wsum(1*A,0*B) using taz", "answer 1 900 900", "stop depth 1 sorted 1 random 1 cost 2", "s A 1 900", "r B 1 500");
  assert.deepEqual(Course.course(only(one)).stages.map((stage) => [stage.threshold, stage.kthLow, stage.mayStop]), [[900n, 900n, true]]);
  assert.deepEqual(Course.figures(only(one)).differences, []);
});

test("Fagin's algorithm stops where k objects stand in every list", () => {
  const text = certificate("top 1 by sum(A,B) using fa", "answer 2 1500 1500", "stop depth 2 sorted 4 random 2 cost 6",
    "s A 1 900", "s B 2 700", "s A 2 800", "s B 3 600", "r B 1 500", "r A 3 100");
  const { stages } = Course.course(only(text));
  assert.deepEqual(stages.map((stage) => [stage.inEvery, stage.mayStop, stage.rival]), [[0, false, null], [1, true, null]]);
  assert.deepEqual(Course.figures(only(text)).differences, []);
});

test("versions of lists are read, in the order of the query", () => {
  const versioned = (...lines) => TWO_LISTS.replace("answer", `${lines.join("\n")}\nanswer`);
  assert.deepEqual(only(versioned("version A 7", "version B 18446744073709551615")).versions, [
    { list: 0, version: 7n }, { list: 1, version: 18_446_744_073_709_551_615n }]);
  assert.deepEqual(only(TWO_LISTS).versions, []);
  for (const [lines, at] of [[["version A 0"], 4], [["version C 1"], 4], [["version B 1", "version A 1"], 5], [["version A 1", "version A 1"], 5]]) {
    assert.deepEqual(Certificate.readOutcomes(versioned(...lines)).map((outcome) => [outcome.kind, outcome.at]), [["fault", at]]);
  }
});

test("costs are counted", () => {
  const text = TWO_LISTS.replace("using ta", "using ta cost 2 30 room 3").replace("cost 7", "cost 98");
  assert.deepEqual(Course.figures(only(text)).differences, []);
});

test("figures that aren't those of the accesses are told", () => {
  const rows = [
    ["depth 2", "depth 3", "depth"],
    ["sorted 4", "sorted 5", "sorted"],
    ["random 3", "random 2", "random"],
    ["cost 7", "cost 8", "cost"],
    ["answer 2 1500", "answer 2 1499", "low of object 2"],
    ["1500\nstop", "1501\nstop", "high of object 2"],
    ["top 1", "top 2", "answers"],
  ];
  for (const [from, to, word] of rows) {
    const { differences } = Course.figures(only(TWO_LISTS.replace(from, to)));
    assert.deepEqual(differences.map((said) => said.split(":")[0]), [word]);
  }
});

test("values of expressions", () => {
  const rows = [
    ["min(A,B,C)", [3n, 1n, 2n], 1n],
    ["max(A,B,C)", [1n, 3n, 2n], 3n],
    ["median(A,B,C)", [30n, 10n, 20n], 20n],
    ["median(A,B,C,D)", [10n, 40n, 20n, 30n], 20n],
    ["median(A,B)", [9n, 10n], 9n],
    ["sum(A,A,B)", [1n, 10n], 12n],
    ["wsum(9007199254740993*A,1*B)", [1n, 0n], 9_007_199_254_740_993n],
    ["wsum(2*min(A,B),3*B)", [1n, 5n], 17n],
    ["min", [4n], 4n],
  ];
  for (const [text, grades, wanted] of rows) {
    assert.equal(Query.value(Query.read(`top 1 by ${text} using ta`).expression, grades), wanted, text);
  }
});

test("texts that spell no query", () => {
  const deep = `${"min(".repeat(8)}A${")".repeat(8)}`;
  const nineLists = "sum(a,b,c,d,e,f,g,h,i)";
  for (const expression of ["", "min()", "min(A", "min(A))", "A,B", "wsum(A)", "wsum(01*A)", "2*A", "1A", "mean(A)", deep, nineLists]) {
    assert.throws(() => Query.read(`top 1 by ${expression} using ta`), SyntaxError, expression);
  }
  const numbers = ["theta", "theta 8", "theta 8/", "theta 08/7", "theta 7/8", "theta 0/0", "theta  8/7", "early", "early 01", "ta 8/7", "taz 1"];
  const others = ["top 1 by A", "top 01 by A using ta", "top 1 by A using fb", "top 1 by A using ta room 1 cost 1 1", " top 1 by A using ta"];
  for (const line of [...numbers.map((words) => `top 1 by A using ${words}`), ...others]) {
    assert.throws(() => Query.read(line), SyntaxError, line);
  }
});

test("a text that is no certificate is told by its first wrong line", () => {
  const lines = TWO_LISTS.trimEnd().split("\n");
  const withLine = (at, line) => lines.with(at - 1, line).join("\n");
  const rows = [
    ["hello", 1],
    ["fixes\n", 1],
    [withLine(1, "certificate 01"), 1],
    [withLine(2, "query top 1 by sum(A,B) using fb"), 2],
    [withLine(3, "count three"), 3],
    [withLine(4, "answer 4294967296 1 1"), 4],
    [withLine(5, "stop depth 2"), 5],
    [withLine(7, "s C 2 700"), 7],
    [withLine(9, "r A 2 1000001"), 9],
    [withLine(9, "x A 2 800"), 9],
    [lines.slice(0, 12).join("\n"), 13],
    [lines.slice(0, 3).join("\n"), 4],
  ];
  for (const [text, at] of rows) {
    const outcomes = Certificate.readOutcomes(text);
    assert.deepEqual(outcomes.map((outcome) => [outcome.kind, outcome.at]), [["fault", at]], text);
  }
});

test("several outcomes in one text, of which one is broken", () => {
  const broken = TWO_LISTS.replace("end\n", "");
  const outcomes = Certificate.readOutcomes(`${TWO_LISTS}refused 2 NoRandom quiet\n${broken}${OPEN.replaceAll("\n", "\r\n")}`);
  assert.deepEqual(outcomes.map((outcome) => outcome.kind), ["certificate", "refusal", "fault", "certificate"]);
  assert.equal(outcomes[2].found, "certificate 1");
  assert.deepEqual(Certificate.readOutcomes(""), []);
});

test("refusals", () => {
  const { kind, line, name, fields } = only("refused 6 NoRandom quiet\n");
  assert.deepEqual([kind, line, name, fields], ["refusal", 6, "NoRandom", ["quiet"]]);
  assert.deepEqual([only("refused bundle 3").line, only("refused bundle 3").fields], [null, ["3"]]);
  assert.equal(only("refused words").name, "words");
  assert.match(Refusals.meaning("NoRandom", ["quiet"]), /quiet offers no random access/);
  assert.match(Refusals.meaning("BadTheta", ["7", "8"]), /factor 7\/8 is below 1/);
  assert.match(Refusals.meaning("NoSorted", ["B"]), /list B from the top, and it offers random access alone/);
  const { line: none, name: command, fields: words } = only("refused node UnknownList A\n");
  assert.deepEqual([none, command], [null, "node"]);
  assert.match(Refusals.meaning(command, words), /no list A/);
  assert.match(Refusals.meaning("Unheard", []), /no answer/);
  assert.match(Refusals.meaning("NoRandom", []), /no answer/);
});

test("each algorithm of the program is known", () => {
  const words = [...read("query_text", "src", "algorithm.rt").matchAll(/Algorithm::\w+[^=]*=> b"(\w+) ?"/g)].map((found) => found[1]);
  assert.ok(words.length >= 7);
  assert.deepEqual(words.toSorted(), Object.keys(Query.ALGORITHMS).toSorted());
});

/** What `run` and `one` write in the cases that are run with the built program. */
function writtenInCases() {
  const cases = path.join(ROOT, "tests", "cases");
  const names = fs.readdirSync(cases).filter((name) => /^(run|one)_/.test(name));
  const outputs = names.map((name) => path.join(cases, name, "output")).filter((file) => fs.existsSync(file));
  return outputs.map((file) => fs.readFileSync(file, "utf8"));
}

test("the examples of the program are read whole, and their figures are those of their accesses", () => {
  const data = fs.readdirSync(path.join(CRATES, "examples", "data")).filter((name) => name.endsWith(".text"));
  const written = [read("topk", "stdout"), ...data.map((name) => read("examples", "data", name)), ...writtenInCases()];
  const texts = [...written, Examples.two].filter((text) => /^(certificate|refused) /.test(text));
  assert.ok(texts.length > 10);
  for (const outcome of texts.flatMap((text) => Certificate.readOutcomes(text))) {
    assert.notEqual(outcome.kind, "fault", outcome.found);
    if (outcome.kind === "refusal") assert.doesNotMatch(Refusals.meaning(outcome.name, outcome.fields), /the line names/);
    if (outcome.kind === "certificate") assert.deepEqual(Course.figures(outcome).differences, []);
  }
});

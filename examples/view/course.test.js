"use strict";

/** `node --test examples/view`: the course of runs against the definitions, worked out anew at each depth from the accesses alone. */
const test = require("node:test");
const assert = require("node:assert/strict");
const Query = require("./query.js");
const Certificate = require("./certificate.js");
const Course = require("./course.js");
const { Best } = require("./best.js");

const falling = (one, other) => (one > other ? -1 : one < other ? 1 : 0);

/** Numbers that look like chance, and are the same in each run. */
function chance(seed) {
  let state = seed;
  return (below) => {
    state = (state * 48271) % 2147483647;
    return state % below;
  };
}

/** The objects from 1 on with grades, ranked: a list of [object, grade]. */
function madeList(draw, count, most) {
  const rows = Array.from({ length: count }, (_, place) => [place + 1, draw(most)]);
  return rows.sort((one, other) => other[1] - one[1] || one[0] - other[0]);
}

/** A certificate over made lists that are read to a depth whatever was known, with random accesses of some seen objects. */
function madeCertificate({ seed, count, lists, query, depth, asks, most = 1000 }) {
  const draw = chance(seed);
  const rows = Array.from({ length: lists }, () => madeList(draw, count, most));
  const lines = [];
  for (let place = 0; place < depth; place += 1) {
    rows.forEach((list, number) => lines.push(`s L${number} ${list[place].join(" ")}`));
    for (let ask = 0; ask < asks; ask += 1) {
      const [object] = rows[draw(lists)][draw(place + 1)];
      const number = draw(lists);
      lines.push(`r L${number} ${rows[number].find((row) => row[0] === object).join(" ")}`);
    }
  }
  const text = `certificate 1\nquery ${query}\ncount ${count}\nstop depth 1 sorted 1 random 1 cost 1\n${lines.join("\n")}\nend\n`;
  const [certificate] = Certificate.readOutcomes(text);
  assert.equal(certificate.kind, "certificate");
  return certificate;
}

/** What the definitions say of the end of a depth: the threshold, the k-th low, the greatest high outside the first k, and whether all is quiet. */
function defined({ query, count, accesses }, depth) {
  const known = new Map();
  const seen = new Set();
  const bottoms = query.names.map(() => 1_000_000n);
  const depths = query.names.map(() => 0);
  for (let place = 0; place < accesses.length; place += 1) {
    const { kind, list, object, grade } = accesses.get(place);
    if (kind === "sorted" && depths[list] === depth) break;
    if (!known.has(object)) known.set(object, {});
    known.get(object)[list] = BigInt(grade);
    if (kind === "random") continue;
    depths[list] += 1;
    bottoms[list] = BigInt(grade);
    seen.add(object);
  }
  const bound = (object, others) => Query.value(query.expression, others.map((other, list) => known.get(object)[list] ?? other));
  const items = [...seen].map((object) => ({ object, low: bound(object, bottoms.map(() => 0n)), high: bound(object, bottoms) }));
  items.sort((one, other) => falling(one.low, other.low) || falling(one.high, other.high) || one.object - other.object);
  const threshold = Query.value(query.expression, bottoms);
  const outside = items.slice(query.k).map((item) => item.high).concat(known.size < count ? [threshold] : []);
  const kthLow = items[query.k - 1]?.low ?? null;
  const rival = outside.length === 0 ? null : outside.sort(falling)[0];
  return { depth, threshold, kthLow, rival, isQuiet: kthLow !== null && (rival === null || kthLow >= rival) };
}

const EXPRESSIONS = ["sum(L0,L1,L2)", "min(L0,L1,L2)", "max(L0,L1,L2)", "median(L0,L1,L2)", "wsum(3*L0,1*min(L1,L2))", "wsum(9007199254740993*L0,1*L1,2*L2)"];

test("threshold, k-th low, the greatest high of others and the stop are those of the definitions, at each depth", () => {
  for (const [number, expression] of EXPRESSIONS.entries()) {
    for (let seed = 1; seed <= 24; seed += 1) {
      const [k, asks, most] = [1 + (seed % 5), seed % 3, [2, 3, 5, 1000][seed % 4]];
      const query = `top ${k} by ${expression} using nra`;
      const certificate = madeCertificate({ seed: seed + 100 * number, count: 14, lists: 3, query, depth: 14, asks, most });
      const { stages } = Course.course(certificate);
      const drawn = stages.map(({ depth, threshold, kthLow, rival, mayStop }) => ({ depth, threshold, kthLow, rival: rival?.high ?? null, isQuiet: mayStop }));
      assert.deepEqual(drawn, stages.map(({ depth }) => defined(certificate, depth)), query);
    }
  }
});

test("an object that random accesses alone have named may be above the first k", () => {
  const head = "certificate 1\nquery top 1 by sum(A,B) using ca\ncount 2\nanswer 1 500 500\nstop depth 1 sorted 1 random 3 cost 4\n";
  const { stages } = Course.course(Certificate.readOutcomes(`${head}s A 1 500\nr B 1 0\nr A 2 400\nr B 2 900\nend\n`)[0]);
  assert.deepEqual(stages.map(({ kthLow, rival, mayStop }) => [kthLow, rival, mayStop]), [[500n, { object: 2, high: 1300n }, false]]);
});

test("of many depths the first ones, the last ones and each where the order turns are drawn", () => {
  const certificate = madeCertificate({ seed: 5, count: 900, lists: 2, query: "top 3 by sum(L0,L1) using nra", depth: 900, asks: 0, most: 1_000_000 });
  const { depth, stages, points, turns } = Course.course(certificate, 12);
  const depths = stages.map((stage) => stage.depth);
  assert.equal(depth, 900);
  assert.deepEqual([depths.slice(0, 2), depths.slice(-2)], [[1, 2], [899, 900]]);
  assert.ok(depths.length <= 12 + turns.length && points.length <= Course.MOST.points + turns.length);
  const quiet = Array.from({ length: 900 }, (_, place) => place + 1).find((at) => defined(certificate, at).isQuiet);
  assert.ok(quiet > 2 && quiet < 899, String(quiet));
  for (const drawn of [depths, turns, points.map((point) => point.depth)]) assert.ok(drawn.includes(quiet), String(drawn));
  assert.equal(stages.find((stage) => stage.mayStop).depth, quiet);
});

test("depths are evenly chosen", () => {
  assert.deepEqual(Course.chosenDepths(3, 200), [1, 2, 3]);
  assert.deepEqual(Course.chosenDepths(9, 3), [1, 5, 9]);
  assert.deepEqual(Course.chosenDepths(0, 3), []);
});

test("of many random accesses in one depth the first few are drawn, and the others counted", () => {
  const certificate = madeCertificate({ seed: 5, count: 40, lists: 2, query: "top 3 by sum(L0,L1) using ca", depth: 2, asks: 30 });
  const { stages } = Course.course(certificate);
  for (const { asked } of stages) {
    assert.equal(asked[0].count + asked[1].count, 30);
    for (const { count, first } of asked) assert.equal(first.length, Math.min(count, Course.MOST.asked));
  }
});

test("accesses that contradict each other are told", () => {
  const head = "certificate 1\nquery top 1 by sum(A,B) using ta\ncount 3\nanswer 2 1500 1500\nstop depth 1 sorted 2 random 3 cost 5\n";
  const rows = "s A 1 900\ns B 2 700\nr B 1 500\nr A 2 800\n";
  const told = (line) => Course.figures(Certificate.readOutcomes(`${head}${rows}${line}\nend\n`)[0]).differences;
  assert.deepEqual(told("r A 2 800"), []);
  assert.match(told("r A 2 801").join(), /accesses: 1 of them contradict/);
  assert.match(told("s A 3 901").join(), /accesses: 1 of them contradict/);
});

test("the k greatest of rising values", () => {
  const draw = chance(3);
  for (const k of [1, 2, 7, 30]) {
    const values = Array(20).fill(0);
    const best = new Best(k, values);
    const offered = new Set();
    for (let step = 0; step < 400; step += 1) {
      const place = draw(20);
      values[place] += draw(4);
      best.offer(place);
      offered.add(place);
      const sorted = [...offered].map((one) => values[one]).sort(falling);
      assert.equal(best.least, sorted[k - 1] ?? null);
    }
  }
});

test("values beyond 2^53 are exact, others are quick", () => {
  const grades = [3, 1_000_000];
  const valueOf = (text) => Query.valuer(Query.read(`top 1 by ${text} using ta`).expression, 1_000_000)(grades);
  assert.equal(valueOf("wsum(9007199254740993*A,1*B)"), 27_021_597_765_222_979n);
  assert.equal(valueOf("wsum(2*A,min(A,B))".replace("min", "1*min")), 9);
  assert.equal(valueOf("sum(A,B)"), 1_000_003);
});

"use strict";

/** The course of a run: what stands at the end of each depth, which depths are worth drawing, and what it comes to at its end. */
const TopkCourse = (() => {
  const isNode = typeof require === "function";
  const Query = isNode ? require("./query.js") : TopkQuery;
  const { Knowledge } = isNode ? require("./knowledge.js") : TopkKnowledge;
  const { differences } = isNode ? require("./figures.js") : TopkFigures;
  const { drained } = isNode ? require("./slices.js") : TopkSlices;
  /** How many depths are drawn in the table and in the chart, how many turns are among them, and how many accesses are drawn of a list in one depth. */
  const MOST = { rows: 60, points: 240, turns: 8, asked: 3 };
  /** At most so many bounds are worked out for the greatest high of other objects: at each depth those of all objects. */
  const MOST_BOUNDS = 3_000_000;
  /** So many accesses are taken between two looks at the clock. */
  const ACCESSES = 4096;

  const minus = (one, other) => (one > other ? 1 : one < other ? -1 : 0);

  /** Whether the k-th low, times a factor, reaches the threshold. */
  const isReached = ({ kthLow, threshold }, { p, q }) => p * BigInt(kthLow) >= q * BigInt(threshold);
  const isMet = ({ kthLow, threshold }) => kthLow >= threshold;

  /** Whether a run may stop at the end of a depth at which k objects were seen, by its algorithm. */
  const STOPS = {
    ta: isMet,
    theta: (end, { query }) => isReached(end, query.factor),
    early: (end, { query }) => isMet(end) || end.depth >= query.depth,
    taz: (end, { count }) => isMet(end) || end.seen === count,
    fa: (end, { query }) => end.inEvery >= query.k,
    nra: (_, certificate, knowledge) => knowledge.isQuiet(),
    ca: (_, certificate, knowledge) => knowledge.isQuiet(),
  };

  /** The least k-th aggregate that `theta` stops at: the threshold over the factor, rounded up. */
  const enough = (threshold, { p, q }) => (q * BigInt(threshold) + p - 1n) / p;

  /** What stands at the end of a depth. */
  function endOf(certificate, knowledge, depth) {
    const { seen, inEvery } = knowledge;
    const end = { depth, threshold: knowledge.threshold(), kthLow: knowledge.kthLow(), seen, inEvery };
    const mayStop = end.kthLow !== null && STOPS[certificate.query.algorithm](end, certificate, knowledge);
    return { ...end, mayStop };
  }

  /** How the k-th low stands to the threshold, from 0 to 3, and whether the run may stop: where this changes the order turns. */
  const orderOf = ({ kthLow, threshold, mayStop }) => (kthLow === null ? 0 : 2 + minus(kthLow, threshold)) + (mayStop ? 4 : 0);

  /**
   * Where the accesses of each depth begin, and at the end their number: those before the first row of the next depth belong to
   * a depth. `rows` has by list the access of each of its rows.
   */
  function depthsOf({ query, accesses }) {
    const starts = [];
    const rows = query.names.map(() => []);
    for (let access = 0; access < accesses.length; access += 1) {
      const isRow = accesses.isRandom[access] === 0;
      if (isRow) rows[accesses.lists[access]].push(access);
      if (starts.length === 0 || (isRow && rows[accesses.lists[access]].length > starts.length)) starts.push(access);
    }
    return { starts: [...starts, accesses.length], rows };
  }

  /** Takes all accesses, and tells the end of each depth; yields now and then which share was taken. */
  function* walked(certificate, starts, atEnd) {
    const knowledge = new Knowledge(certificate);
    for (let depth = 1; depth < starts.length; depth += 1) {
      for (let access = starts[depth - 1]; access < starts[depth]; access += 1) {
        knowledge.take(access);
        if (access % ACCESSES === 0) yield access / certificate.accesses.length;
      }
      atEnd(depth, knowledge);
    }
    return knowledge;
  }

  /** Of depths from 1 to the last so many, evenly spaced, the first and the last among them; all where they are fewer. */
  function chosenDepths(last, most) {
    if (last <= most) return Array.from({ length: last }, (_, place) => place + 1);
    return Array.from({ length: most }, (_, place) => 1 + Math.round((place * (last - 1)) / (most - 1)));
  }

  /** Of depths from 1 to the last so many: a third are the first and the last ones, the others evenly spaced; all where they are fewer. */
  function drawnDepths(last, most) {
    if (last <= most) return new Set(chosenDepths(last, most));
    const few = Math.floor(most / 6);
    const ends = Array.from({ length: few }, (_, place) => [1 + place, last - place]).flat();
    return new Set([...chosenDepths(last, most - 2 * few), ...ends]);
  }

  /** The random accesses from one access to another, by list: the first few of them, and how many there are. */
  function askedBetween({ query, accesses }, from, to) {
    const asked = query.names.map(() => ({ count: 0, first: [] }));
    for (let access = from; access < to; access += 1) {
      if (accesses.isRandom[access] === 0) continue;
      const list = asked[accesses.lists[access]];
      list.count += 1;
      if (list.first.length < MOST.asked) list.first.push(accesses.get(access));
    }
    return asked;
  }

  /** A depth as it is drawn in the table: what stands at its end, the row of each list there (or null), and the random accesses. */
  function stageOf(certificate, { starts, rows }, end, knowledge) {
    const { algorithm, factor } = certificate.query;
    const isByBounds = Query.BY_BOUNDS.includes(algorithm);
    const firstK = isByBounds ? knowledge.firstK() : null;
    return {
      ...end,
      threshold: BigInt(end.threshold),
      kthLow: end.kthLow === null ? null : BigInt(end.kthLow),
      bottoms: knowledge.bottoms.map(BigInt),
      enough: factor === null ? null : enough(end.threshold, factor),
      rival: isByBounds ? knowledge.rival((place) => firstK.has(place)) : null,
      rows: rows.map((list) => (list[end.depth - 1] === undefined ? null : certificate.accesses.get(list[end.depth - 1]))),
      asked: askedBetween(certificate, starts[end.depth - 1], starts[end.depth]),
    };
  }

  /** A depth as it is drawn in the chart. */
  function pointOf({ depth, threshold, kthLow }, factor) {
    const least = kthLow === null ? null : BigInt(kthLow);
    return { depth, threshold: BigInt(threshold), kthLow: least, enough: factor === null ? null : enough(threshold, factor) };
  }

  /** How many depths of a certificate are drawn in the table. */
  function mostRows({ query, accesses }, most) {
    return Query.BY_BOUNDS.includes(query.algorithm) ? Math.min(most, Math.max(16, Math.floor(MOST_BOUNDS / accesses.length))) : most;
  }

  /**
   * What a certificate comes to: `depth`, how many depths it has; `stages`, those that are drawn in the table, at most so many and
   * where the order turns; `points`, those in the chart; `turns`; `figures`, its sums. Yields which share of the work is done.
   */
  function* studying(certificate, most = MOST.rows) {
    const depths = depthsOf(certificate);
    const last = depths.starts.length - 1;
    const wanted = { stages: drawnDepths(last, mostRows(certificate, most)), points: drawnDepths(last, MOST.points) };
    const [stages, points, turns] = [[], [], []];
    let order = null;
    const knowledge = yield* walked(certificate, depths.starts, (depth, known) => {
      const end = endOf(certificate, known, depth);
      const isTurn = order !== null && orderOf(end) !== order && turns.length < MOST.turns;
      if (isTurn) turns.push(depth);
      if (isTurn || wanted.stages.has(depth)) stages.push(stageOf(certificate, depths, end, known));
      if (isTurn || wanted.points.has(depth)) points.push(pointOf(end, certificate.query.factor));
      order = orderOf(end);
    });
    return { depth: last, stages, points, turns, figures: figuresOf(certificate, knowledge) };
  }

  /** The sums of a certificate at its end, what may still be outside its answer, and where its head says something else. */
  function figuresOf(certificate, knowledge) {
    const { query, count, answers, accesses } = certificate;
    const sorted = knowledge.depths.reduce((one, other) => one + other);
    const random = accesses.length - sorted;
    const cost = BigInt(sorted) * query.costs.sorted + BigInt(random) * query.costs.random;
    const sums = { depth: Math.max(...knowledge.depths), sorted, random, cost };
    const inside = new Set(answers.map((answer) => answer.object));
    return {
      ...sums,
      depths: knowledge.depths,
      grades: query.names.length * count,
      known: knowledge.known,
      threshold: BigInt(knowledge.threshold()),
      leastLow: answers.reduce((least, { low }) => (least === null || low < least ? low : least), null),
      rival: knowledge.rival((place) => inside.has(knowledge.objects[place])),
      differences: differences(certificate, sums, knowledge),
    };
  }

  const course = (certificate, most) => drained(studying(certificate, most));
  const figures = (certificate) => course(certificate).figures;

  return { MOST, studying, course, figures, chosenDepths };
})();

if (typeof module === "object") module.exports = TopkCourse;

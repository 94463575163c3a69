"use strict";

/**
 * What topk writes, read back: certificates, refusals, and where a text is neither.
 *
 * An outcome is one of
 *   { kind: "certificate", line, query, count, versions, answers, guarantee, stop, accesses }
 *                                                     `guarantee` is null where the algorithm has none
 *   { kind: "refusal", line, name, fields, text }     `line` is null where no query line was refused
 *   { kind: "fault", at, expected, found }            line `at` of the text, from 1, isn't what was expected
 */
const TopkCertificate = (() => {
  const isNode = typeof require === "function";
  const Query = isNode ? require("./query.js") : TopkQuery;
  const { Lines } = isNode ? require("./lines.js") : TopkLines;
  const { Accesses } = isNode ? require("./accesses.js") : TopkAccesses;
  const MAX_OBJECT = 4_294_967_295;
  const MAX_GRADE = 1_000_000;

  class Fault extends Error {
    constructor(at, expected) {
      super(expected);
      this.at = at;
    }
  }

  const pattern = (form) => new RegExp(`^${form.replaceAll("N", "(0|[1-9][0-9]*)")}$`);
  const HEAD = pattern("certificate N");
  const QUERY = /^query (.*)$/;
  const COUNT = pattern("count N");
  const VERSION = pattern("version ([A-Za-z][A-Za-z0-9_]*) N");
  const ANSWER = pattern("answer N N N");
  const GUARANTEE = pattern("guarantee N N");
  const STOP = pattern("stop depth N sorted N random N cost N");
  const ACCESS = pattern("([sr]) ([A-Za-z][A-Za-z0-9_]*) N N");
  const END = /^end$/;
  const REFUSED = /^refused [^ ].*$/;
  const BEGINNING = /^(certificate|refused) /;

  /** What a pattern finds in the next line, which is taken; else a fault that says what was expected. */
  function* take(lines, wanted, expected) {
    const found = yield* lines.find(wanted);
    if (found === null) throw new Fault(lines.at + 1, expected);
    return found;
  }

  function* readQuery(lines) {
    const [, line] = yield* take(lines, QUERY, "`query` and the text of the query");
    try {
      return Query.read(line);
    } catch (error) {
      if (error instanceof SyntaxError) throw new Fault(lines.at, `a query of topk (${error.message})`);
      throw error;
    }
  }

  /** The versions that sources stated of their lists, in the order of the query. */
  function* readVersions(lines, names) {
    const versions = [];
    for (let found = yield* lines.find(VERSION); found !== null; found = yield* lines.find(VERSION)) {
      const list = names.indexOf(found[1]);
      const isNext = list > (versions.at(-1)?.list ?? -1);
      if (!isNext || found[2] === "0") throw new Fault(lines.at, "versions from 1 on, at most one of a list, in the order of the query");
      versions.push({ list, version: BigInt(found[2]) });
    }
    return versions;
  }

  function* readAnswers(lines) {
    const answers = [];
    for (let found = yield* lines.find(ANSWER); found !== null; found = yield* lines.find(ANSWER)) {
      answers.push({ object: within(lines, found[1], MAX_OBJECT), low: BigInt(found[2]), high: BigInt(found[3]) });
    }
    return answers;
  }

  /** The guarantee, which stands under some algorithms and no others. */
  function* readGuarantee(lines, { algorithm }) {
    if (!Query.GUARANTEED.includes(algorithm)) return null;
    const [, p, q] = yield* take(lines, GUARANTEE, `an \`answer\` line, or \`guarantee P Q\`, which stands under \`${algorithm}\``);
    return { p: BigInt(p), q: BigInt(q) };
  }

  function* readStop(lines, isGuaranteed) {
    const wanted = "`stop depth .. sorted .. random .. cost ..`";
    const [, depth, sorted, random, cost] = yield* take(lines, STOP, isGuaranteed ? wanted : `an \`answer\` line, or ${wanted}`);
    return { depth: Number(depth), sorted: Number(sorted), random: Number(random), cost: BigInt(cost) };
  }

  function* readAccesses(lines, names) {
    const accesses = new Accesses();
    for (;;) {
      if (!lines.isAtHand) yield* lines.wait();
      const found = lines.match(ACCESS);
      if (found === null) return accesses;
      const list = names.indexOf(found[2]);
      if (list < 0) throw new Fault(lines.at, "an access of a list that the query names");
      accesses.push(found[1] === "r", list, within(lines, found[3], MAX_OBJECT), within(lines, found[4], MAX_GRADE));
    }
  }

  /** A number of the line that was taken last, which may not pass a limit. */
  function within(lines, digits, limit) {
    const number = Number(digits);
    if (number > limit) throw new Fault(lines.at, `numbers up to ${limit}`);
    return number;
  }

  function* readCertificate(lines) {
    const [, line] = yield* take(lines, HEAD, "`certificate` and the number of the query line");
    const query = yield* readQuery(lines);
    const [, count] = yield* take(lines, COUNT, "`count` and the number of objects");
    const versions = yield* readVersions(lines, query.names);
    const answers = yield* readAnswers(lines);
    const guarantee = yield* readGuarantee(lines, query);
    const stop = yield* readStop(lines, guarantee !== null);
    const accesses = yield* readAccesses(lines, query.names);
    yield* take(lines, END, "an access (`s NAME OBJECT GRADE` or `r NAME OBJECT GRADE`), or `end`");
    return { kind: "certificate", line: Number(line), query, count: Number(count), versions, answers, guarantee, stop, accesses };
  }

  /** A refusal of a line that fits its pattern. */
  function refusalOf(text) {
    const [first, ...rest] = text.split(" ").slice(1);
    if (!/^[0-9]+$/.test(first)) return { kind: "refusal", line: null, name: first, fields: rest, text };
    const [name = "", ...fields] = rest;
    return { kind: "refusal", line: Number(first), name, fields, text };
  }

  function* readOutcome(lines) {
    const start = lines.at;
    try {
      const refused = lines.match(REFUSED);
      return refused === null ? yield* readCertificate(lines) : refusalOf(refused[0]);
    } catch (fault) {
      if (!(fault instanceof Fault)) throw fault;
      const found = lines.textOf(fault.at);
      yield* lines.skipTo(Math.max(start + 1, fault.at - 1), BEGINNING);
      return { kind: "fault", at: fault.at, expected: fault.message, found };
    }
  }

  /** Reads the outcomes of lines, in their order. A text without lines holds none. */
  function* reading(lines) {
    const outcomes = [];
    for (yield* lines.wait(); lines.isAtHand; yield* lines.wait()) outcomes.push(yield* readOutcome(lines));
    return outcomes;
  }

  /** Reads a text that it is fed in slices: at its end it has the outcomes. */
  class OutcomeReader {
    constructor() {
      this.work = reading(new Lines());
      this.work.next();
    }

    feed(slice) {
      this.work.next(slice);
    }

    end() {
      return this.work.next(null).value;
    }
  }

  /** The outcomes that a text holds. */
  function readOutcomes(text) {
    const reader = new OutcomeReader();
    reader.feed(text);
    return reader.end();
  }

  return { MAX_GRADE, OutcomeReader, readOutcomes };
})();

if (typeof module === "object") module.exports = TopkCertificate;

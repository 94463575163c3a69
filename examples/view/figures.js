"use strict";

/** Where the head of a certificate says something else than its accesses, or these contradict each other. */
const TopkFigures = (() => {
  const MOST = 20;
  const EXACT = { p: 1n, q: 1n };
  const written = (guarantee) => (guarantee === null ? "none" : `${guarantee.p} ${guarantee.q}`);

  /** The guarantee that a certificate's query and accesses come to: the factor that is asked for, or what an early stop shows. */
  function guaranteeOf({ query, answers }, knowledge) {
    if (query.algorithm !== "early") return query.factor;
    const lows = answers.map((answer) => knowledge.boundsOf(answer.object).low);
    const least = lows.length === 0 ? 0n : lows.reduce((one, other) => (other < one ? other : one));
    const threshold = BigInt(knowledge.threshold());
    if (least >= threshold) return EXACT;
    return least === 0n ? { p: 1n, q: 0n } : { p: threshold, q: least };
  }

  /** What differs, in sentences; at most so many, and then how many more. */
  function differences(certificate, sums, knowledge) {
    const { query, answers, guarantee, stop } = certificate;
    const said = [];
    const compare = (what, stated, counted) => {
      if (stated !== counted) said.push(`${what}: the certificate says ${stated}, its accesses come to ${counted}`);
    };
    compare("answers", answers.length, query.k);
    compare("guarantee", written(guarantee), written(guaranteeOf(certificate, knowledge)));
    for (const key of ["depth", "sorted", "random", "cost"]) compare(key, stop[key], sums[key]);
    for (const { object, low, high } of answers) {
      const bounds = knowledge.boundsOf(object);
      compare(`low of object ${object}`, low, bounds.low);
      compare(`high of object ${object}`, high, bounds.high);
    }
    if (knowledge.contradictions > 0) said.push(`accesses: ${knowledge.contradictions} of them contradict others, as rising grades do, or two grades of one object`);
    return said.length <= MOST ? said : [...said.slice(0, MOST), `and ${said.length - MOST} more`];
  }

  return { differences };
})();

if (typeof module === "object") module.exports = TopkFigures;

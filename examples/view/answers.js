"use strict";

/** The answers of a certificate with their bounds, and what may still be above them. */
const TopkAnswers = (() => {
  const { element, grouped, percent, counted, objectIn, objectText, scrolling, tabular } = TopkElements;
  /** Of so many answers the first and the last ones are drawn where there are more. */
  const LAST = 5;
  /** Numbers of more characters stand one under another where there is little room. */
  const LONG = 12;
  /** So many pixels are room enough for a table. */
  const ROOM = 480;

  /** A factor p/q, and in decimals, rounded up, so that what is said of it stays true. */
  function factorText({ p, q }) {
    const thousandths = (1000n * p + q - 1n) / q;
    return `${grouped(p)}/${grouped(q)} (at most ${grouped(thousandths / 1000n)}.${String(thousandths % 1000n).padStart(3, "0")} times as much)`;
  }

  /** A guarantee in words. */
  function guaranteeText({ p, q }) {
    if (q === 0n) return "Nothing is guaranteed: the least low of the answer is 0.";
    if (p === q) return "Guaranteed: no object outside is better.";
    return `Guaranteed: no object outside is better by more than the factor ${factorText({ p, q })}.`;
  }

  /** What is said of the greatest value outside where it is above the least low of the answer. */
  function aboveText(high, leastLow, guarantee) {
    if (guarantee === null) return "these accesses don't fix it";
    if (guarantee.q === 0n) return "it may be better";
    return guarantee.q * high > guarantee.p * leastLow ? "these accesses don't bear out the guarantee" : "that is within the guarantee";
  }

  /** What may still be above the answer, in a sentence. */
  function verdict({ rival, leastLow }, { answers: items, guarantee }, names) {
    if (leastLow === null) return "There is no answer line.";
    if (rival === null) return "Each object is in the answer.";
    const who = rival.object === null ? "an object that no access has named" : objectText(rival.object, names);
    const most = `No other object can have more than ${grouped(rival.high)} (${who})`;
    const above = `which is above the least low of the answer, ${grouped(leastLow)}`;
    if (rival.high > leastLow) return `${most}, ${above}: ${aboveText(rival.high, leastLow, guarantee)}.`;
    const open = items.some((item) => item.high > item.low) ? " (the hatched part is open)" : "";
    return `${most}, and each answer has at least ${grouped(leastLow)}${open}.`;
  }

  const number = (label, value) => tabular("td", { class: "number", "data-label": label }, grouped(value));

  function answerRow({ object, low, high }, scale, rival, names) {
    const bar = (name, style) => element("div", { class: name, style });
    const bars = [bar("bar-low", `width: ${percent(low, scale)}`)];
    if (high > low) bars.push(bar("bar-open", `left: ${percent(low, scale)}; width: ${percent(high - low, scale)}`));
    if (rival !== null) bars.push(bar("bar-rival", `left: ${percent(rival.high, scale)}`));
    const bounds = tabular("td", { class: "bounds wide", "aria-hidden": "true" }, element("div", { class: "track" }, bars));
    const said = names.has(object) ? objectIn("span", object, names) : String(object);
    const head = tabular("th", { class: names.has(object) ? "named" : "number", scope: "row" }, said);
    return tabular("tr", {}, head, bounds, number("least", low), number("greatest", high));
  }

  /** The rows of answers: all, or the first and the last ones with the number of those between. */
  function rowsOf(items, most, row) {
    if (items.length <= most) return items.map(row);
    const first = most - LAST;
    const gap = tabular("td", { colspan: 4, class: "wide" }, `${grouped(items.length - most)} more`);
    return [...items.slice(0, first).map(row), tabular("tr", { class: "gap" }, gap), ...items.slice(-LAST).map(row)];
  }

  /** The answers of a certificate, at most so many; `view` has the names of objects. */
  function answers(certificate, figures, { names, width, answers: most }) {
    const { answers: items, guarantee } = certificate;
    const scale = [...items.map((item) => item.high), figures.rival?.high ?? 0n].reduce((a, b) => (b > a ? b : a), 0n);
    const column = (title, name = "number") => tabular("th", { class: name, scope: "col" }, title);
    const line = figures.rival === null ? "" : "the upright line: what no other object can pass";
    const isNamed = items.some((item) => names.has(item.object));
    const bar = tabular("td", { class: "bounds", "aria-hidden": "true" }, line);
    const head = tabular("tr", {}, column("object", isNamed ? "named" : "number"), bar, column("least"), column("greatest"));
    const rows = rowsOf(items, most, (item) => answerRow(item, scale, figures.rival, names));
    const columns = grouped(scale).length > LONG ? 1 : 2;
    const table = tabular("table", { style: `--columns: ${columns}` }, tabular("thead", {}, head), tabular("tbody", {}, rows));
    const title = element("h2", {}, items.length === 1 ? "The answer" : `The ${counted(items.length, "answer")}`);
    const promise = guarantee === null ? null : element("p", { "data-figure": "guarantee" }, guaranteeText(guarantee));
    const said = element("p", { class: "note" }, verdict(figures, certificate, names));
    return element("section", { class: "answers" }, title, promise, said, scrolling("Answers with their bounds", table, width < ROOM));
  }

  return { answers };
})();

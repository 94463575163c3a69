"use strict";

/** Two outcomes side by side, such as the certificates of `ta` and `nra` over the same lists. */
const TopkCompare = (() => {
  const { element, grouped, percent, scrolling, tabular, objectText } = TopkElements;
  const MOST_NAMED = 5;
  /** So many pixels of one picture are room enough for the table of both. */
  const ROOM = 480;

  /** What of two runs is set against each other: a title, and a number of each. */
  function measures(runs) {
    const of = (title, number) => ({ title, numbers: runs.map(({ certificate, study }) => number(study.figures, certificate)) });
    const unread = ({ depths }, { count }) => depths.reduce((sum, depth) => sum + Math.max(0, count - depth), 0);
    return [
      of("cost", (figures) => figures.cost),
      of("depth", (figures) => figures.depth),
      of("rows read", (figures) => figures.sorted),
      of("random accesses", (figures) => figures.random),
      of("rows not read", unread),
      of("grades known", (figures) => figures.known),
    ];
  }

  function measureRow({ title, numbers }, names) {
    const greatest = numbers.reduce((one, other) => (other > one ? other : one));
    const cells = numbers.map((number, place) => {
      const bar = element("div", { class: `bar ${place === 0 ? "first" : "second"}`, "aria-hidden": "true", style: `width: ${percent(number, greatest)}` });
      const said = element("span", { "data-figure": `${title} ${place + 1}` }, grouped(number));
      return tabular("td", { "data-label": names[place] }, element("div", { class: "against" }, bar, said));
    });
    return tabular("tr", {}, tabular("th", { scope: "row" }, title), cells);
  }

  /** The objects of one answer that another lacks, in words. */
  function lacking(one, other, names) {
    const there = new Set(other.answers.map((answer) => answer.object));
    const missing = one.answers.filter((answer) => !there.has(answer.object)).map((answer) => answer.object);
    const few = missing.slice(0, MOST_NAMED).map((object) => objectText(object, names)).join(", ");
    return { count: missing.length, text: missing.length > MOST_NAMED ? `${few} and ${grouped(missing.length - MOST_NAMED)} more` : few };
  }

  /** What a query asks, apart from its algorithm and its costs. */
  const question = ({ query }) => query.line.replace(/ using .*$/, "");

  /** How two answers stand to each other, in sentences. */
  function answersText([one, other], names) {
    if (question(one) !== question(other) || one.count !== other.count) return "The two answer different questions.";
    const [first, second] = [lacking(one, other, names), lacking(other, one, names)];
    if (first.count === 0 && second.count === 0) return `Both name the same ${one.answers.length === 1 ? "object" : `${grouped(one.answers.length)} objects`}.`;
    const shared = one.answers.length - first.count;
    return `Of their objects ${grouped(shared)} are the same. The first alone names ${first.text || "none"}, the second alone ${second.text || "none"}.`;
  }

  /** The names of two runs: their algorithms, or where these are the same, the numbers of their lines too. */
  function namesOf([one, other]) {
    const name = ({ query }) => query.line.match(/ using (.*)$/)[1];
    return name(one) === name(other) ? [`${name(one)}, first`, `${name(other)}, second`] : [name(one), name(other)];
  }

  function table(runs, names, width) {
    const column = (title) => tabular("th", { scope: "col" }, title);
    const rows = measures(runs);
    const longest = Math.max(...rows.flatMap(({ numbers }) => numbers.map((number) => grouped(number).length)));
    const head = tabular("thead", {}, tabular("tr", {}, tabular("td"), names.map(column)));
    const body = tabular("tbody", {}, rows.map((measure) => measureRow(measure, names)));
    const attributes = { class: "measures", style: `--label: ${longest}ch` };
    return scrolling("What both took", tabular("table", attributes, head, body), width < ROOM);
  }

  /** Two certificates: what both took, and their pictures, of which the charts are drawn alike. */
  function* certificates(pair, width, names) {
    const runs = [];
    for (const certificate of pair) runs.push({ certificate, study: yield* TopkPicture.studying(certificate, 0.5) });
    const drawn = runs.filter(({ study }) => study.stages.length > 0).map(({ certificate, study }) => [certificate.query, study]);
    const frame = drawn.length === 0 ? undefined : TopkChart.frameOf(drawn);
    const view = { width, frame, names, part: 0.5, hasSums: false };
    const pictures = [];
    for (const { certificate, study } of runs) pictures.push(yield* TopkPicture.certificatePicture(certificate, study, view));
    const titles = namesOf(pair);
    const head = element("h2", {}, `${titles[0]} beside ${titles[1]}`);
    const said = element("p", { class: "note", "data-figure": "both" }, answersText(pair, names));
    return [element("section", { class: "comparison" }, head, said, table(runs, titles, width)), element("div", { class: "beside" }, pictures)];
  }

  /** Two outcomes side by side, each so many pixels wide; yields which share of the work is done. */
  function* drawing(pair, width, names) {
    if (pair.every((outcome) => outcome.kind === "certificate")) return element("div", {}, yield* certificates(pair, width, names));
    const pictures = [];
    for (const outcome of pair) pictures.push(yield* TopkPicture.drawing(outcome, width, names));
    return element("div", { class: "beside" }, pictures);
  }

  const compare = (pair, width, names) => TopkSlices.drained(drawing(pair, width, names));

  return { compare, drawing };
})();

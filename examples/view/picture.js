"use strict";

/** The picture of one outcome: a certificate, a refusal, or a text that is neither. */
const TopkPicture = (() => {
  const { element, grouped, percent, counted } = TopkElements;
  const MOST_SHOWN = 200;
  /** How much of a certificate is drawn at most, so that a page has at most 5,000 elements. */
  const MOST = { elements: 3600, rows: 50, leastRows: 8, answers: 60 };
  const NO_NAMES = new Map();

  /** A text in which what stands between back quotes is code. */
  const withCode = (text) => text.split("`").map((part, place) => (place % 2 === 1 ? element("code", {}, part) : part));

  /** What is wrong with an outcome: a few words that stand out, and what explains them. */
  const wrong = (title, ...rest) => element("div", { class: "fault", role: "alert" }, element("strong", {}, title), " ", ...rest);

  function fault({ at, expected, found }) {
    const said = found === null ? "The text ends there." : ["It is: ", element("code", {}, found.slice(0, MOST_SHOWN)), "."];
    return wrong("This is no certificate.", `At line ${grouped(at)} was expected: `, ...withCode(expected), ". ", ...said);
  }

  function refusal({ name, fields, text }) {
    const { kind, sentence, cure } = TopkRefusals.explained(name, fields);
    return wrong(`Refused: there is no ${kind === "judge" ? "verdict" : "answer"}.`, ...withCode(`${sentence} ${cure} `), element("code", {}, text));
  }

  /** The sums of a run, each with a line that explains it. */
  function sums({ query, count }, figures) {
    const unread = figures.depths.reduce((sum, depth) => sum + Math.max(0, count - depth), 0);
    const rows = `${counted(figures.sorted, "row")} at ${grouped(query.costs.sorted)}`;
    const asked = `${counted(figures.random, "random access", "random accesses")} at ${grouped(query.costs.random)}`;
    const one = (term, value, note) => {
      const shown = element("dd", { "data-figure": term }, value, element("small", {}, note));
      return element("div", {}, element("dt", {}, term), shown);
    };
    return element(
      "dl",
      { class: "sums" },
      one("cost", grouped(figures.cost), `${rows}, ${asked}`),
      one("depth", grouped(figures.depth), `of ${counted(count, "row")} in each of ${counted(query.names.length, "list")}`),
      one("rows not read", grouped(unread), `of ${grouped(figures.grades)}: ${percent(unread, figures.grades)} of the lists`),
      one("grades never known", grouped(figures.grades - figures.known), `of ${grouped(figures.grades)}, neither by row nor by random access`),
    );
  }

  /** Why a run may stop, by its algorithm. */
  const THRESHOLD = "The threshold is the value at the last grades read: no object that no row has shown can have more.";
  const MEETS = `${THRESHOLD} The run stops where the k-th aggregate meets it`;
  const GREATEST = "Of a list that offers random access alone the greatest grade, 1,000,000, is taken for the last one.";
  const BOUNDS = `${THRESHOLD} The run stops where the k-th low meets the greatest high of all others`;
  const STOPS = {
    ta: () => `${MEETS}.`,
    theta: ({ factor: { p, q } }) => `${THRESHOLD} The run stops where the k-th aggregate, times ${grouped(p)}/${grouped(q)}, reaches it.`,
    early: ({ depth }) => `${MEETS}, or once it has reached depth ${grouped(depth)} and has seen k objects.`,
    taz: () => `${MEETS}, or once all objects were seen. ${GREATEST}`,
    fa: () => "The run stops where the rows of every list have shown the same k objects, and then asks for what is unknown of all that were seen.",
    nra: () => `${BOUNDS}, shown or not.`,
    ca: () => `${BOUNDS}, and then asks for what is unknown of its answers.`,
  };

  function courseSection(query, study, { width, frame }) {
    const [title, why] = [element("h2", {}, "Why it stopped there"), element("p", { class: "note" }, STOPS[query.algorithm](query))];
    return element("section", { class: "course" }, title, why, TopkChart.chart(query, study, width, frame));
  }

  /** The head of a certificate: its query, what it is about, and where it says something else than its accesses. */
  function headOf({ query, line, count, versions }, figures) {
    const about = `Line ${grouped(line)}, answered by ${TopkQuery.ALGORITHMS[query.algorithm]} over ${counted(count, "object")}.`;
    const stated = versions.map(({ list, version }) => `${query.names[list]} is at version ${version}`);
    const differences = element("ul", {}, figures.differences.map((said) => element("li", {}, said)));
    return element(
      "section",
      { class: "head" },
      element("p", { class: "query" }, query.line),
      element("p", { class: "note" }, about, stated.length === 0 ? null : ` ${stated.join(", ")}.`),
      figures.differences.length === 0 ? null : wrong("Its figures are not those of its accesses.", differences),
    );
  }

  /** How many depths of a certificate are drawn in a part of the page: each has a cell for every list, in it a row and random accesses. */
  function rowsOf({ query, stop }, part) {
    const cell = 6 + (stop.random > 0 ? 2 + 5 * TopkCourse.MOST.asked : 0);
    const row = 16 + query.names.length * cell;
    return Math.min(Math.floor(part * MOST.rows), Math.max(MOST.leastRows, Math.floor((part * MOST.elements) / row)));
  }

  /** By certificate: what it came to, and for which part of the page. */
  const studied = new WeakMap();

  /** What a certificate comes to, as far as a part of the page, 1 or less, has room for it; yields the share that is done. */
  function* studying(certificate, part) {
    const known = studied.get(certificate);
    if (known?.part === part) return known.study;
    const study = yield* TopkCourse.studying(certificate, rowsOf(certificate, part));
    studied.set(certificate, { part, study });
    return study;
  }

  /**
   * The sections of a certificate. `view` has the `width` of charts in pixels, their `frame` (or undefined), the `names` of objects, the
   * `part` of the page, and whether the sums are drawn, which a comparison has in a table of its own.
   */
  function* certificatePicture(certificate, study, view) {
    const { figures } = study;
    const most = { names: view.names, width: view.width, answers: Math.floor(MOST.answers * view.part) };
    const article = element("article", {}, headOf(certificate, figures), TopkAnswers.answers(certificate, figures, most));
    yield 0;
    const titled = element("h2", {}, "What it took");
    if (view.hasSums) article.append(element("section", { class: "took" }, titled, sums(certificate, figures)));
    if (study.stages.length === 0) return article;
    article.append(courseSection(certificate.query, study, view), yield* TopkLists.lists(certificate, study, most));
    return article;
  }

  /** The picture of an outcome, so many pixels wide; yields which share of the work is done. */
  function* drawing(outcome, width, names = NO_NAMES) {
    if (outcome.kind === "fault") return fault(outcome);
    if (outcome.kind === "refusal") return refusal(outcome);
    const study = yield* studying(outcome, 1);
    return yield* certificatePicture(outcome, study, { width, names, part: 1, hasSums: true });
  }

  const picture = (outcome, width, names) => TopkSlices.drained(drawing(outcome, width, names));

  return { picture, drawing, studying, certificatePicture };
})();

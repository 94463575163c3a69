"use strict";

/** The lists as far as they were read, depth by depth: rows, random accesses, and what stands at the end of a depth. */
const TopkLists = (() => {
  const { element, grouped, percent, hidden, objectIn, scrolling, tabular } = TopkElements;

  /** So many pixels are room enough for the depth and its end, and for each list. */
  const ROOM = { depth: 330, list: 150 };

  /** An object and its grade, as a row or a random access gave it. */
  function given({ object, grade }, name, { inside, names }) {
    const star = inside.has(object) ? "★ " : "";
    const said = [objectIn(name, object, names), hidden(" has"), ` ${grouped(grade)}`];
    return names.has(object) ? [star, ...said] : [star, hidden("object "), ...said];
  }

  /** The random accesses of a list in one depth: the first few, and how many more there are. */
  function askedList({ count, first }, drawing) {
    if (count === 0) return null;
    const items = first.map((access) => element("li", {}, "◆ ", hidden("random access: "), given(access, "span", drawing)));
    if (count > first.length) items.push(element("li", { class: "more" }, `◆ and ${grouped(count - first.length)} more`));
    return element("ul", { class: "random" }, items);
  }

  /** What a list gave at a depth. */
  function listCell(row, asked, list, drawing) {
    const bar = (grade) => element("i", { style: `width: ${percent(grade, drawing.top)}` });
    const shown = row === null ? null : element("div", { class: "row" }, bar(row.grade), given(row, "b", drawing));
    return tabular("td", { "data-label": list }, shown, askedList(asked, drawing));
  }

  /** What stands at the end of a stage: a class, a text and a value each. */
  function metersOf(stage, { algorithm }) {
    const kth = TopkQuery.BY_THRESHOLD.includes(algorithm) ? "k-th" : "k-th low";
    const meters = [
      { name: "threshold", title: "threshold", value: stage.threshold },
      { name: "kth", title: kth, value: stage.kthLow },
      { name: "enough", title: "enough from", value: stage.enough },
      { name: "rival", title: "others up to", value: stage.rival?.high ?? null },
    ];
    return meters.filter((meter) => meter.value !== null).map((meter) => ({ ...meter, text: `${meter.title} ${grouped(meter.value)}` }));
  }

  function meterCell(meters, scale, counts) {
    const drawn = meters.flatMap(({ name, value, text }) => [
      element("div", { class: name, "aria-hidden": "true", style: `width: ${percent(value, scale)}` }),
      element("span", { "data-figure": name }, text),
    ]);
    const said = counts === null ? null : element("span", { class: "counts", "data-figure": "counts" }, counts);
    return tabular("td", { class: "wide", "data-label": "at its end" }, element("div", { class: "meter" }, drawn, said));
  }

  /** How many objects were seen, and how many the rows of every list have shown, where an algorithm goes by that. */
  function countText({ seen, inEvery }, algorithm) {
    if (algorithm === "taz") return `${grouped(seen)} seen`;
    return algorithm === "fa" ? `${grouped(inEvery)} in every list` : null;
  }

  function unreadRow({ query, count }, figures) {
    const said = (depth) => (depth === count ? "read whole" : `${grouped(count - depth)} of ${grouped(count)} not read`);
    const cell = (depth, list) => tabular("td", { class: "unread", "data-label": query.names[list] }, said(depth));
    const head = tabular("th", { scope: "row", class: "number" }, "below");
    return tabular("tr", {}, head, figures.depths.map(cell), tabular("td", { class: "none" }));
  }

  /** One depth of a run: what each list gave there, and what stands at its end. */
  function stageRow(stage, query, drawing) {
    const cells = stage.rows.map((row, list) => listCell(row, stage.asked[list], query.names[list], drawing));
    const depth = tabular("th", { scope: "row", class: "number depth" }, grouped(stage.depth), stage.mayStop ? hidden(", may stop") : null);
    const meters = meterCell(metersOf(stage, query), drawing.greatest, countText(stage, query.algorithm));
    return tabular("tr", stage.mayStop ? { class: "met" } : {}, depth, cells, meters);
  }

  /** The depths between two stages that aren't drawn. */
  function gapRow(from, to, columns) {
    if (to < from) return null;
    const said = from === to ? `depth ${grouped(from)} isn't drawn` : `depths ${grouped(from)} to ${grouped(to)} aren't drawn`;
    return tabular("tr", { class: "gap" }, tabular("td", { colspan: columns, class: "wide" }, said));
  }

  /** What the bars of a run are drawn against: the greatest grade, the greatest value, the answer. */
  function drawingOf({ answers: items, query }, stages, names) {
    const meters = stages.flatMap((stage) => metersOf(stage, query));
    const accesses = stages.flatMap((stage) => [...stage.rows.filter((row) => row !== null), ...stage.asked.flatMap((asked) => asked.first)]);
    return {
      names,
      inside: new Set(items.map((item) => item.object)),
      top: accesses.reduce((most, access) => Math.max(most, access.grade), 0),
      greatest: meters.reduce((most, { value }) => (value > most ? value : most), 0n),
      label: meters.reduce((most, { text }) => Math.max(most, text.length), 0),
    };
  }

  function headOf({ query }, figures) {
    const column = (...title) => tabular("th", { scope: "col" }, title);
    // `taz` reads a row of each list that can be read in order at every depth.
    const isUnread = (list) => query.algorithm === "taz" && figures.depths[list] === 0;
    const columns = query.names.map((name, list) => column(name, isUnread(list) ? element("small", {}, " random access alone") : null));
    const depth = tabular("th", { scope: "col", class: "number" }, "depth");
    return tabular("thead", {}, tabular("tr", {}, depth, columns, column("at the end of the depth")));
  }

  /** The depths of a certificate that are drawn; yields between them which share is. */
  function* lists(certificate, { stages, depth, figures }, { names, width }) {
    const { query } = certificate;
    const drawing = drawingOf(certificate, stages, names);
    const columns = query.names.length + 2;
    const body = tabular("tbody");
    for (const [place, stage] of stages.entries()) {
      const gap = gapRow((stages[place - 1]?.depth ?? 0) + 1, stage.depth - 1, columns);
      body.append(...(gap === null ? [] : [gap]), stageRow(stage, query, drawing));
      yield place / stages.length;
    }
    body.append(unreadRow(certificate, figures));
    const some = stages.length < depth ? ` Of ${grouped(depth)} depths, ${grouped(stages.length)} are drawn.` : "";
    const caption = element("caption", {}, `A row: an object and its grade. ◆ random access. ★ in the answer.${some}`);
    const table = tabular("table", { style: `--label: ${drawing.label}ch; --columns: ${query.names.length}` }, caption, headOf(certificate, figures), body);
    const isBlocks = width < ROOM.depth + ROOM.list * query.names.length;
    const title = element("h2", {}, "The lists, as far as they were read");
    return element("section", { class: "lists" }, title, scrolling("Lists, depth by depth", table, isBlocks));
  }

  return { lists };
})();

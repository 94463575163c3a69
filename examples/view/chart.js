"use strict";

/** The chart of a run: the threshold falls, depth by depth, and the k-th low rises. */
const TopkChart = (() => {
  const { element, shape, grouped, share } = TopkElements;
  const HEIGHT = 280;
  const EDGE = { left: 8, right: 16, top: 26, bottom: 40 };
  const CHARACTER = 7.5;
  const MOST_MARKS = 40;

  /** The lines of a chart: a class, a title, and their values by depth. */
  function linesOf({ k, algorithm, factor }, { points, stages }) {
    const kth = TopkQuery.BY_THRESHOLD.includes(algorithm) ? "aggregate" : "low";
    const line = (name, title, of, from = points) => {
      const values = from.map((point) => ({ depth: point.depth, value: of(point) }));
      return { name, title, values: values.filter(({ value }) => value !== null) };
    };
    const lines = [
      line("threshold", "threshold", (point) => point.threshold),
      line("kth", `k-th ${kth}, k = ${grouped(k)}`, (point) => point.kthLow),
    ];
    const share = factor === null ? "" : `${grouped(factor.q)}/${grouped(factor.p)} of the threshold, which is enough`;
    if (factor !== null) lines.push(line("enough", share, (point) => point.enough));
    const isByBounds = TopkQuery.BY_BOUNDS.includes(algorithm);
    if (isByBounds) lines.push(line("rival", "greatest high of another object", (stage) => stage.rival?.high ?? null, stages));
    return lines;
  }

  /** Round values from some value at or below the least to one at or above the greatest, four steps or so. */
  function roundValues(least, greatest) {
    const wanted = (greatest - least) / 4n || 1n;
    const power = 10n ** BigInt(String(wanted).length - 1);
    const step = [1n, 2n, 5n, 10n].map((times) => times * power).find((size) => size >= wanted);
    const values = [(least / step) * step];
    do values.push(values.at(-1) + step);
    while (values.at(-1) < greatest);
    return values;
  }

  /** What charts of some runs have to show, so that they can be drawn alike: pairs of a query and its study. */
  function frameOf(runs) {
    const shown = runs.flatMap(([query, study]) => linesOf(query, study).flatMap((line) => line.values.map(({ value }) => value)));
    const least = shown.reduce((one, other) => (other < one ? other : one));
    const greatest = shown.reduce((one, other) => (other > one ? other : one));
    return { values: roundValues(least, greatest), last: Math.max(...runs.map(([, study]) => study.depth)) };
  }

  /** Where depths and values stand in a chart of a width. */
  function scalesOf({ values, last }, width) {
    const left = EDGE.left + CHARACTER * Math.max(...values.map((value) => grouped(value).length));
    const right = width - EDGE.right;
    const [lowest, highest] = [values[0], values.at(-1)];
    return {
      values,
      left,
      right,
      last,
      x: (depth) => left + 12 + (last === 1 ? (right - left) / 2 : ((right - left - 12) * (depth - 1)) / (last - 1)),
      y: (value) => EDGE.top + (HEIGHT - EDGE.top - EDGE.bottom) * (1 - share(value - lowest, highest - lowest)),
    };
  }

  /** Round depths up to the last, at most so many, and the first. */
  function ticks(last, most) {
    const wanted = Math.max(1, Math.ceil(last / most));
    const power = 10 ** (String(wanted).length - 1);
    const step = [1, 2, 5, 10].map((times) => times * power).find((size) => size >= wanted);
    const round = Array.from({ length: Math.floor(last / step) }, (_, place) => (place + 1) * step);
    return step === 1 ? round : [1, ...round];
  }

  function axes({ values, left, right, last, x, y }) {
    const bottom = HEIGHT - EDGE.bottom;
    const most = Math.max(2, Math.floor((right - left) / 55));
    const centred = (at, down, text) => shape("text", { x: at, y: bottom + down, "text-anchor": "middle" }, text);
    return [
      ...values.flatMap((value) => [
        shape("line", { class: "axis", x1: left, x2: right, y1: y(value), y2: y(value) }),
        shape("text", { x: left - 6, y: y(value) + 4, "text-anchor": "end" }, grouped(value)),
      ]),
      ...ticks(last, most).map((depth) => centred(x(depth), 17, grouped(depth))),
      centred((left + right) / 2, 35, "depth"),
    ];
  }

  /** An upright line at the depth where a run ended, with that depth. */
  function stopMark(depth, { x, left, right }) {
    const at = x(depth);
    const anchor = at - left < 60 ? "start" : right - at < 60 ? "end" : "middle";
    const line = shape("line", { class: "stop", x1: at, x2: at, y1: EDGE.top - 6, y2: HEIGHT - EDGE.bottom });
    return [line, shape("text", { class: "stop", x: at, y: EDGE.top - 11, "text-anchor": anchor }, `stops at ${grouped(depth)}`)];
  }

  function drawn(line, scales) {
    const points = line.values.map(({ depth, value }) => [scales.x(depth).toFixed(1), scales.y(value).toFixed(1)]);
    const marks = points.length > MOST_MARKS ? [] : points.map(([cx, cy]) => shape("circle", { class: line.name, cx, cy, r: 3.5 }));
    return [shape("polyline", { class: line.name, points: points.map((point) => point.join(",")).join(" ") }), ...marks];
  }

  function legend(lines) {
    const stroke = (line) => shape("line", { class: line.name, x1: 0, x2: 34, y1: 4, y2: 4 });
    const sample = (line) => shape("svg", { class: "chart", width: 34, height: 8, "aria-hidden": "true" }, stroke(line));
    return element("ul", { class: "legend" }, lines.map((line) => element("li", {}, sample(line), line.title)));
  }

  /** The chart of a run, so many pixels wide, in its own frame or another. Its numbers stand in the table of the lists too. */
  function chart(query, study, width, frame = frameOf([[query, study]])) {
    const lines = linesOf(query, study);
    const scales = scalesOf(frame, width);
    const ends = lines.map((line) => `${line.title} ${line.values.length === 0 ? "none" : grouped(line.values.at(-1).value)}`).join(", ");
    const label = `By depth, from 1 to ${grouped(study.depth)}. At the end: ${ends}.`;
    const attributes = { class: "chart", width, height: HEIGHT, viewBox: `0 0 ${width} ${HEIGHT}`, role: "img", "aria-label": label };
    const svg = shape("svg", attributes, axes(scales), stopMark(study.depth, scales), lines.flatMap((line) => drawn(line, scales)));
    return element("figure", {}, legend(lines), svg);
  }

  return { chart, frameOf, roundValues };
})();

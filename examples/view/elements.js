"use strict";

/** Elements of the page, and numbers as it writes them. */
const TopkElements = (() => {
  const SVG = "http://www.w3.org/2000/svg";

  function fill(made, attributes, children) {
    for (const [name, value] of Object.entries(attributes)) made.setAttribute(name, value);
    made.append(...children.flat().filter((child) => child !== null));
    return made;
  }

  /** An HTML element with attributes, elements and texts. Children that are null are left out. */
  const element = (name, attributes = {}, ...children) => fill(document.createElement(name), attributes, children);

  /** An SVG element. */
  const shape = (name, attributes = {}, ...children) => fill(document.createElementNS(SVG, name), attributes, children);

  /** A number with its digits in groups of three, as 1,657,500. */
  const grouped = (number) => String(number).replace(/\B(?=(\d{3})+$)/g, ",");

  /** How much of a whole a part is, from 0 to 1; both may be BigInt beyond 2^53. */
  const share = (part, whole) => (BigInt(whole) === 0n ? 0 : Number((BigInt(part) * 1_000_000n) / BigInt(whole)) / 1_000_000);

  /** A share as a CSS length, as 93.75%. */
  const percent = (part, whole) => `${Number((100 * share(part, whole)).toFixed(2))}%`;

  /** A count with its noun, as `1 row` or `2 rows`. */
  const counted = (number, noun, nouns = `${noun}s`) => `${grouped(number)} ${BigInt(number) === 1n ? noun : nouns}`;

  /** A text for those alone who hear the page. */
  const hidden = (text) => element("span", { class: "hidden" }, text);

  /** An object as the page shows it: by its name, where a file of keys gave it one, else by its number. */
  function objectIn(name, object, names) {
    const key = names.get(object);
    return key === undefined ? element(name, {}, object) : element(name, { class: "key", title: `object ${object}` }, element("bdi", {}, key));
  }

  /** An object in a sentence. */
  const objectText = (object, names) => (names.has(object) ? `${names.get(object)} (object ${object})` : `object ${object}`);

  /** A table that may be wider than the page, or where it has no room, its cells as blocks. */
  function scrolling(label, table, isBlocks) {
    const attributes = { class: isBlocks ? "scroll blocks" : "scroll", tabindex: "0", role: "region", "aria-label": label };
    return element("div", attributes, table);
  }

  /** Parts of a table that keep their meaning where a narrow page draws them as blocks. */
  const ROLES = { table: "table", thead: "rowgroup", tbody: "rowgroup", tr: "row", td: "cell" };
  function tabular(name, attributes = {}, ...children) {
    const role = name === "th" ? (attributes.scope === "row" ? "rowheader" : "columnheader") : ROLES[name];
    return element(name, { role, ...attributes }, ...children);
  }

  return { element, shape, grouped, share, percent, counted, hidden, objectIn, objectText, scrolling, tabular };
})();

"use strict";

/** What the lines `refused ..` of topk mean, in the sentences of refusals.js. */
const TopkRefusals = (() => {
  const ENTRIES = typeof require === "function" ? require("./refusals.js") : REFUSALS;
  const UNHEARD = { kind: null, sentence: "topk gave no answer, for the reason that the line names.", cure: "" };

  /** The entry of a refusal, and the fields behind its key: a key may have two words, as `catalog SameName`. */
  function entryOf(name, fields) {
    const two = `${name} ${fields[0]}`;
    const [key, rest] = Object.hasOwn(ENTRIES, two) ? [two, fields.slice(1)] : [name, fields];
    const entry = Object.hasOwn(ENTRIES, key) ? ENTRIES[key] : null;
    return entry === null || entry.fields.length !== rest.length ? null : { entry, rest };
  }

  /** A text with the fields of a refusal in the place of their names. */
  function filled(text, names, fields) {
    return text.replace(/\{(\w+)\}/g, (whole, name) => fields[names.indexOf(name)] ?? whole);
  }

  /** What a refusal means and what to do: its kind, a sentence and a cure. A plain sentence without a cure where its name isn't known. */
  function explained(name, fields) {
    const found = entryOf(name, fields);
    if (found === null) return UNHEARD;
    const { entry, rest } = found;
    const [sentence, cure] = [entry.sentence, entry.cure].map((text) => filled(text, entry.fields, rest));
    const access = ENTRIES[`kind ${rest[entry.fields.indexOf("kind")]}`];
    return { kind: entry.kind, sentence: access === undefined ? sentence : `${sentence} ${access.sentence}`, cure };
  }

  const meaning = (name, fields) => explained(name, fields).sentence;

  return { NAMES: Object.keys(ENTRIES), explained, meaning };
})();

if (typeof module === "object") module.exports = TopkRefusals;

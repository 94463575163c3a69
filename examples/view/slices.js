"use strict";

/** Long work in slices, so that the page answers meanwhile: a generator yields now and then which share of it is done. */
const TopkSlices = (() => {
  const MILLISECONDS = 24;
  const CHARACTERS = 1 << 18;

  const pause = () => new Promise((resume) => setTimeout(resume));

  /** What a generator returns, run to its end at once. */
  function drained(work) {
    let step = work.next();
    while (!step.done) step = work.next();
    return step.value;
  }

  /** What a generator returns, run in slices; `tell` gets the share that is done. Null as soon as it isn't wanted any more. */
  async function run(work, tell, isWanted) {
    let until = performance.now() + MILLISECONDS;
    for (let step = work.next(); ; step = work.next()) {
      if (step.done) return step.value;
      if (performance.now() < until) continue;
      tell(step.value);
      await pause();
      if (!isWanted()) return null;
      until = performance.now() + MILLISECONDS;
    }
  }

  function* ofText(text) {
    for (let at = 0; at < text.length; at += CHARACTERS) yield text.slice(at, at + CHARACTERS);
  }

  async function* ofFile(file) {
    const decoder = new TextDecoder();
    for (let at = 0; at < file.size; at += CHARACTERS) {
      yield decoder.decode(await file.slice(at, at + CHARACTERS).arrayBuffer(), { stream: true });
    }
    yield decoder.decode();
  }

  /** What a reader makes of a text or a file, which it is fed in slices: it has `feed` and `end`. Null as soon as it isn't wanted any more. */
  async function read(source, reader, tell, isWanted) {
    const size = (typeof source === "string" ? source.length : source.size) || 1;
    let done = 0;
    for await (const slice of typeof source === "string" ? ofText(source) : ofFile(source)) {
      reader.feed(slice);
      done += slice.length;
      tell(Math.min(1, done / size));
      await pause();
      if (!isWanted()) return null;
    }
    return reader.end();
  }

  return { drained, run, read };
})();

if (typeof module === "object") module.exports = TopkSlices;

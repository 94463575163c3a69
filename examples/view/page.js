"use strict";

/** The page: takes texts and files, lists their outcomes, and draws the picked ones. A fragment `#text=..&pick=2&beside=3` does the same. */
(() => {
  const { element, grouped, counted } = TopkElements;
  const IDS = ["source", "text", "file", "keys", "pasted", "example", "pair", "doing", "progress", "status", "choice", "pick", "beside", "picture"];
  const part = Object.fromEntries(IDS.map((id) => [id, document.getElementById(id)]));
  const WIDTHS = { least: 300, greatest: 1100, gap: 32, beside: 900 };
  const KEYS = "object,key";
  /** So many outcomes can be picked. */
  const MOST_PICKED = 400;

  const state = { outcomes: [], names: new Map(), said: "", jobs: { outcomes: 0, keys: 0, drawing: 0 } };

  /** Begins a job of a kind, and answers whether it is still the last one of its kind. */
  function begin(kind) {
    state.jobs[kind] += 1;
    const own = state.jobs[kind];
    return () => own === state.jobs[kind];
  }

  /** An outcome in the list to pick from. */
  function titleOf(outcome) {
    const of = outcome.file === undefined ? "" : `${outcome.file}, `;
    if (outcome.kind === "fault") return `${of}no certificate, at line ${outcome.at} of the text`;
    if (outcome.kind === "refusal") return of + outcome.text;
    return `${of}certificate ${outcome.line}: ${outcome.query.line}`;
  }

  function statusOf({ outcomes, names, said }) {
    const number = (kind) => outcomes.filter((outcome) => outcome.kind === kind).length;
    const parts = [
      [number("certificate"), (many) => counted(many, "certificate")],
      [number("refusal"), (many) => counted(many, "refusal")],
      [number("fault"), (many) => `${counted(many, "text")} that can't be read`],
    ];
    const found = parts.filter(([many]) => many > 0).map(([many, words]) => words(many)).join(", ");
    const sentences = [outcomes.length === 0 ? "There is no certificate in an empty text." : `${found}.`];
    if (outcomes.length > MOST_PICKED) sentences.push(`The first ${grouped(MOST_PICKED)} can be picked.`);
    if (names.size > 0) sentences.push(`${counted(names.size, "object")} with names.`);
    return [...sentences, said].filter((sentence) => sentence !== "").join(" ");
  }

  /** Shows how far some work has come; a share of 1 hides the bar. */
  function tell(what, share) {
    const isDone = share >= 1;
    for (const one of [part.doing, part.progress]) one.hidden = isDone;
    part.doing.textContent = what;
    part.progress.value = share;
    part.picture.setAttribute("aria-busy", String(!isDone));
  }

  /** The width of a chart, of one picture or of one of two beside each other. */
  function chartWidth(isPair) {
    const whole = part.picture.clientWidth;
    const own = isPair && whole >= WIDTHS.beside ? Math.floor((whole - WIDTHS.gap) / 2) : whole;
    return Math.min(WIDTHS.greatest, Math.max(WIDTHS.least, own));
  }

  function pictureOf(first, second) {
    const width = chartWidth(second !== undefined);
    return second === undefined ? TopkPicture.drawing(first, width, state.names) : TopkCompare.drawing([first, second], width, state.names);
  }

  /** Draws the picked outcomes, in slices; what is drawn before that is given up. */
  async function show() {
    const isWanted = begin("drawing");
    const first = state.outcomes[Number(part.pick.value)];
    const second = part.beside.value === "" ? undefined : state.outcomes[Number(part.beside.value)];
    const drawn = first === undefined ? "" : await TopkSlices.run(pictureOf(first, second), (share) => tell("Drawing", share), isWanted);
    if (!isWanted()) return;
    part.picture.replaceChildren(drawn);
    tell("", 1);
  }

  /** Lists outcomes to pick from, and draws the ones at these places. */
  function offer(outcomes, pick, beside) {
    state.outcomes = outcomes;
    part.status.textContent = statusOf(state);
    part.choice.hidden = outcomes.length < 2;
    const titles = outcomes.slice(0, MOST_PICKED).map(titleOf);
    const options = () => titles.map((title, at) => element("option", { value: at }, title));
    part.pick.replaceChildren(...options());
    part.beside.replaceChildren(element("option", { value: "" }, "nothing"), ...options());
    part.pick.selectedIndex = Math.min(Math.max(0, pick), titles.length - 1);
    part.beside.selectedIndex = beside >= 0 && beside < titles.length ? beside + 1 : 0;
    return show();
  }

  /** Reads texts and files in slices with a reader each; null where others of their kind are read meanwhile. */
  async function readAll(kind, sources, makeReader) {
    const [isWanted, results] = [begin(kind), []];
    tell("Reading", 0);
    for (const [place, source] of sources.entries()) {
      const said = (share) => tell("Reading", Math.min(0.999, (place + share) / sources.length));
      results.push(await TopkSlices.read(source, makeReader(), said, isWanted));
      if (!isWanted()) return null;
    }
    return results;
  }

  /** Reads the outcomes of texts or files, and draws the picked ones. A file that can't be read is said to be so. */
  async function take(sources, pick = 0, beside = -1) {
    state.said = "";
    try {
      const read = await readAll("outcomes", sources, () => new TopkCertificate.OutcomeReader());
      if (read === null) return;
      const named = (outcome, place) => (sources.length < 2 ? outcome : { ...outcome, file: sources[place].name });
      await offer(read.flatMap((outcomes, place) => outcomes.map((outcome) => named(outcome, place))), pick, beside);
    } catch (error) {
      tell("", 1);
      part.status.textContent = `It can't be read: ${error.message}`;
    }
  }

  async function takeKeys(file) {
    const read = await readAll("keys", [file], () => new TopkKeys.KeyReader());
    if (read === null) return;
    const [{ names, wrong }] = read;
    state.said = wrong === null ? "" : wrong;
    state.names = wrong === null ? names : new Map();
    part.status.textContent = statusOf(state);
    await show();
  }

  function takeText(written, pick, beside) {
    part.text.value = written;
    return take([written], pick, beside);
  }

  /** Files are read where they stand, and never put into the text field. One that begins as keys do has names, wherever it was given. */
  async function takeFiles(given) {
    const files = [];
    for (const file of given) {
      const isKeys = (await file.slice(0, KEYS.length).text()) === KEYS;
      if (isKeys) await takeKeys(file);
      else files.push(file);
    }
    if (files.length === 0) return;
    part.text.value = "";
    part.pasted.open = false;
    await take(files);
  }

  function takeFragment() {
    const given = new URLSearchParams(location.hash.slice(1));
    const place = (name) => Number(given.get(name) ?? 0) - 1 || 0;
    if (given.has("text")) takeText(given.get("text"), place("pick"), given.has("beside") ? place("beside") : -1);
  }

  part.source.addEventListener("submit", (event) => {
    event.preventDefault();
    take([part.text.value]);
  });
  part.example.addEventListener("click", () => takeText(TopkExamples.one));
  part.pair.addEventListener("click", () => takeText(TopkExamples.two, 0, 1));
  part.file.addEventListener("change", () => takeFiles(part.file.files));
  part.keys.addEventListener("change", () => part.keys.files.length > 0 && takeKeys(part.keys.files[0]));
  for (const select of [part.pick, part.beside]) select.addEventListener("change", show);
  addEventListener("dragover", (event) => event.preventDefault());
  addEventListener("drop", (event) => {
    event.preventDefault();
    takeFiles(event.dataTransfer.files);
  });
  let drawnWidth = innerWidth;
  addEventListener("resize", () => {
    // On phones the height alone changes while one scrolls.
    if (innerWidth !== drawnWidth) show();
    drawnWidth = innerWidth;
  });
  addEventListener("hashchange", takeFragment);
  takeFragment();
})();

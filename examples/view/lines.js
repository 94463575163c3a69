"use strict";

/** The lines of a text that comes in slices, of which one at a time is next. Lines that were taken are kept until the next slice comes. */
const TopkLines = (() => {
  const isBlank = (line) => line === "" || line === "\r";

  class Lines {
    constructor() {
      this.ready = [];
      this.place = 0;
      /** How many lines stood before the ready ones; what stands after them; whether the text has ended. */
      this.before = 0;
      this.rest = "";
      this.isEnded = false;
    }

    /** How many lines were taken. */
    get at() {
      return this.before + this.place;
    }

    get isAtHand() {
      return this.place < this.ready.length;
    }

    /** The next line. Carriage returns come in by pasting, and mean nothing here. */
    get next() {
      const line = this.ready[this.place];
      return line.endsWith("\r") ? line.slice(0, -1) : line;
    }

    /** Takes a slice of the text, or null at its end. Blank lines at the end of a text are none. */
    feed(slice) {
      const parts = (this.rest + (slice ?? "")).split("\n");
      this.isEnded = slice === null;
      let whole = this.isEnded ? parts.length : parts.length - 1;
      while (whole > 0 && isBlank(parts[whole - 1])) whole -= 1;
      this.rest = this.isEnded ? "" : parts.slice(whole).join("\n");
      this.ready = this.ready.slice(this.place).concat(parts.slice(0, whole));
      this.before += this.place;
      this.place = 0;
    }

    /** Waits, where no line is at hand, for slices: each is what a `yield` gives back. */
    *wait() {
      while (!this.isAtHand && !this.isEnded) this.feed(yield);
    }

    /** What a pattern finds in the next line, which is taken then, or null. */
    *find(pattern) {
      if (!this.isAtHand) yield* this.wait();
      return this.match(pattern);
    }

    /** The same where a line is at hand, or the text has ended. */
    match(pattern) {
      const found = this.isAtHand ? pattern.exec(this.next) : null;
      if (found !== null) this.place += 1;
      return found;
    }

    /** The text of a line, from 1: the last one that was taken, or the next one. Null behind the last. */
    textOf(number) {
      const line = this.ready[number - 1 - this.before];
      return line === undefined ? null : line.replace(/\r$/, "");
    }

    /** Goes to the first line from a place on that fits a pattern. The place is no earlier than the line that was taken last. */
    *skipTo(place, pattern) {
      this.place = place - this.before;
      yield* this.wait();
      while (this.isAtHand && !pattern.test(this.next)) {
        this.place += 1;
        yield* this.wait();
      }
    }
  }

  return { Lines };
})();

if (typeof module === "object") module.exports = TopkLines;

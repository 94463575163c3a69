"use strict";

/**
 * What is known after some accesses of a certificate: grades, the bounds of objects, the threshold.
 * The words are those of docs/DEFINITIONS.md: low, high, bottom, depth, threshold, seen, named.
 */
const TopkKnowledge = (() => {
  const isNode = typeof require === "function";
  const Query = isNode ? require("./query.js") : TopkQuery;
  const { MAX_GRADE } = isNode ? require("./certificate.js") : TopkCertificate;
  const { Best } = isNode ? require("./best.js") : TopkBest;
  const UNKNOWN = -1;

  const falling = (one, other) => (one > other ? -1 : one < other ? 1 : 0);

  /** Objects are numbered by places, from 0, in the order in which accesses name them. */
  class Knowledge {
    constructor({ query, count, accesses }) {
      Object.assign(this, { query, count, accesses });
      this.value = Query.valuer(query.expression, MAX_GRADE);
      this.bottoms = query.names.map(() => MAX_GRADE);
      this.depths = query.names.map(() => 0);
      this.places = new Map();
      this.objects = [];
      /** By place: its grades, one for each list; its low; of how many lists a row has shown it. */
      this.grades = [];
      this.lows = [];
      this.shown = [];
      this.best = new Best(query.k, this.lows);
      /** How many objects some row, and the rows of every list, have shown; how many grades are known. */
      this.seen = 0;
      this.inEvery = 0;
      this.known = 0;
      /** Places that may still have a high above the k-th low outside the first k, and the last one that had. */
      this.candidates = [];
      this.witness = null;
      this.contradictions = 0;
      this.scratch = query.names.map(() => 0);
    }

    /** Takes an access of the certificate. Of two grades that contradict each other the first one is kept. */
    take(access) {
      const { accesses } = this;
      const [list, grade] = [accesses.lists[access], accesses.grades[access]];
      const place = this.placeOf(accesses.objects[access]);
      const grades = this.grades[place];
      if (grades[list] === UNKNOWN) {
        grades[list] = grade;
        this.known += 1;
        this.lows[place] = this.valueOf(grades, null);
      } else if (grades[list] !== grade) this.contradictions += 1;
      if (accesses.isRandom[access] === 0) this.takeRow(place, list, grade);
      if (this.shown[place] > 0) this.best.offer(place);
    }

    takeRow(place, list, grade) {
      if (grade > this.bottoms[list]) this.contradictions += 1;
      this.bottoms[list] = grade;
      this.depths[list] += 1;
      this.shown[place] += 1;
      if (this.shown[place] === 1) this.seen += 1;
      if (this.shown[place] === this.depths.length) this.inEvery += 1;
    }

    placeOf(object) {
      const known = this.places.get(object);
      if (known !== undefined) return known;
      const place = this.objects.length;
      this.places.set(object, place);
      this.objects.push(object);
      this.grades.push(this.depths.map(() => UNKNOWN));
      this.lows.push(this.valueOf(this.grades[place], null));
      this.shown.push(0);
      this.candidates.push(place);
      return place;
    }

    /** The value at grades, with these in place of unknown ones, or 0. */
    valueOf(grades, others) {
      for (let list = 0; list < grades.length; list += 1) {
        const grade = grades[list];
        this.scratch[list] = grade !== UNKNOWN ? grade : others === null ? 0 : others[list];
      }
      return this.value(this.scratch);
    }

    /** The greatest aggregate that the object of a place may have. */
    high(place) {
      return this.valueOf(this.grades[place], this.bottoms);
    }

    /** The bounds of an object, named or not. */
    boundsOf(object) {
      const grades = this.grades[this.places.get(object)] ?? this.depths.map(() => UNKNOWN);
      return { low: BigInt(this.valueOf(grades, null)), high: BigInt(this.valueOf(grades, this.bottoms)) };
    }

    /** The greatest aggregate that an object which no row has shown may have. */
    threshold() {
      return this.value(this.bottoms);
    }

    /** The k-th largest low of the seen objects, or null where fewer were seen. */
    kthLow() {
      return this.best.least;
    }

    hasUnnamed() {
      return this.objects.length < this.count;
    }

    /** Whether no object outside the first k has a high above the k-th low. */
    isQuiet() {
      const least = this.kthLow();
      if (least === null || (this.hasUnnamed() && this.threshold() > least)) return false;
      if (this.witness !== null && this.isWitness(this.witness, least)) return false;
      return !this.findWitness(least);
    }

    isWitness(place, least) {
      return this.high(place) > least && (this.lows[place] < least || this.shown[place] === 0);
    }

    /** Lows and the k-th low rise, and highs fall: whose high is no greater is none for good, and of more than k others one is outside. */
    findWitness(least) {
      for (let at = 0; at < this.candidates.length; ) {
        const place = this.candidates[at];
        if (this.high(place) <= least) {
          this.candidates[at] = this.candidates.at(-1);
          this.candidates.pop();
          continue;
        }
        if (this.isWitness(place, least)) {
          this.witness = place;
          return true;
        }
        at += 1;
        if (at > this.query.k) return true;
      }
      return false;
    }

    /** The object outside that may have the greatest aggregate: { object, high }, `object` null for one that isn't named. */
    rival(isInside) {
      let best = this.hasUnnamed() ? { place: null, high: this.threshold() } : null;
      for (let place = 0; place < this.objects.length; place += 1) {
        if (isInside(place)) continue;
        const high = this.high(place);
        if (best === null || high > best.high) best = { place, high };
      }
      return best && { object: best.place === null ? null : this.objects[best.place], high: BigInt(best.high) };
    }

    /** The places of the first k of the seen objects: by low falling, then by high falling, then by number. */
    firstK() {
      const least = this.kthLow();
      const [first, tied] = [[], []];
      for (let place = 0; place < this.objects.length; place += 1) {
        if (this.shown[place] === 0) continue;
        if (least === null || this.lows[place] > least) first.push(place);
        else if (this.lows[place] === least) tied.push({ place, high: this.high(place) });
      }
      tied.sort((one, other) => falling(one.high, other.high) || this.objects[one.place] - this.objects[other.place]);
      return new Set([...first, ...tied.slice(0, this.query.k - first.length).map((item) => item.place)]);
    }
  }

  return { Knowledge };
})();

if (typeof module === "object") module.exports = TopkKnowledge;

"use strict";

/** The k greatest of values that only rise: a heap whose top is the least of them. */
const TopkBest = (() => {
  class Best {
    /** `values` has the value of each place, and is looked at anew when a place is offered. */
    constructor(k, values) {
      this.k = k;
      this.values = values;
      this.heap = [];
      /** By place: where it stands in the heap, or undefined. */
      this.at = [];
    }

    /** The k-th greatest value, or null where fewer places were offered. */
    get least() {
      return this.heap.length < this.k || this.k === 0 ? null : this.values[this.heap[0]];
    }

    /** Takes a place whose value is new, or has risen. */
    offer(place) {
      if (this.at[place] !== undefined) this.sink(this.at[place]);
      else if (this.heap.length < this.k) this.rise(place);
      else if (this.k > 0 && this.values[place] > this.values[this.heap[0]]) this.replace(place);
    }

    replace(place) {
      this.at[this.heap[0]] = undefined;
      this.put(place, 0);
      this.sink(0);
    }

    put(place, at) {
      this.heap[at] = place;
      this.at[place] = at;
    }

    rise(place) {
      let at = this.heap.length;
      while (at > 0 && this.values[this.heap[(at - 1) >> 1]] > this.values[place]) {
        this.put(this.heap[(at - 1) >> 1], at);
        at = (at - 1) >> 1;
      }
      this.put(place, at);
    }

    sink(from) {
      const place = this.heap[from];
      let at = from;
      for (let child = this.lesserChild(at); child !== null; child = this.lesserChild(at)) {
        if (this.values[this.heap[child]] >= this.values[place]) break;
        this.put(this.heap[child], at);
        at = child;
      }
      this.put(place, at);
    }

    lesserChild(at) {
      const [left, right] = [2 * at + 1, 2 * at + 2];
      if (left >= this.heap.length) return null;
      return right < this.heap.length && this.values[this.heap[right]] < this.values[this.heap[left]] ? right : left;
    }
  }

  return { Best };
})();

if (typeof module === "object") module.exports = TopkBest;

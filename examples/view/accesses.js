"use strict";

/** The accesses of a certificate, in columns: a long one has millions. */
const TopkAccesses = (() => {
  class Accesses {
    constructor() {
      this.length = 0;
      this.isRandom = new Uint8Array(1024);
      this.lists = new Uint8Array(1024);
      this.objects = new Uint32Array(1024);
      this.grades = new Uint32Array(1024);
    }

    push(isRandom, list, object, grade) {
      if (this.length === this.lists.length) this.grow();
      this.isRandom[this.length] = isRandom ? 1 : 0;
      this.lists[this.length] = list;
      this.objects[this.length] = object;
      this.grades[this.length] = grade;
      this.length += 1;
    }

    grow() {
      for (const name of ["isRandom", "lists", "objects", "grades"]) {
        const column = this[name];
        this[name] = new column.constructor(2 * column.length);
        this[name].set(column);
      }
    }

    /** One access, as { kind, list, object, grade }. */
    get(place) {
      const kind = this.isRandom[place] === 1 ? "random" : "sorted";
      return { kind, list: this.lists[place], object: this.objects[place], grade: this.grades[place] };
    }
  }

  return { Accesses };
})();

if (typeof module === "object") module.exports = TopkAccesses;

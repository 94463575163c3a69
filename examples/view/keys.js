"use strict";

/** The names of objects, from a file of keys: CSV whose header begins with `object,key`, a record for each object. */
const TopkKeys = (() => {
  const MAX_OBJECT = 4_294_967_295;

  /** Records of CSV that come in slices: a field may stand in double quotes, and then have commas, ends of lines and doubled quotes. */
  class Records {
    constructor() {
      this.record = [];
      this.field = "";
      this.isQuoted = false;
      this.wasQuote = false;
    }

    /** The records that a slice ends. */
    feed(slice) {
      const whole = [];
      for (const character of slice) {
        if (this.isQuoted) this.inQuotes(character);
        else if (character === "\n") this.endRecord(whole);
        else this.outside(character);
      }
      return whole;
    }

    inQuotes(character) {
      if (character === '"') [this.isQuoted, this.wasQuote] = [false, true];
      else this.field += character;
    }

    outside(character) {
      if (character === '"') {
        // A quote behind the one that ended the quoted part stands for itself.
        if (this.wasQuote) this.field += '"';
        this.isQuoted = true;
      } else if (character === ",") this.endField();
      else if (character !== "\r") this.field += character;
      this.wasQuote = false;
    }

    endField() {
      this.record.push(this.field);
      [this.field, this.wasQuote] = ["", false];
    }

    endRecord(whole) {
      this.endField();
      if (this.record.length > 1 || this.record[0] !== "") whole.push(this.record);
      this.record = [];
    }

    /** The last record, where it hasn't ended. */
    end() {
      return this.feed("\n");
    }
  }

  /** Reads a file of keys that it is fed in slices: at its end it has `names`, by object, and what is wrong with it, or null. */
  class KeyReader {
    constructor() {
      this.records = new Records();
      this.names = new Map();
      this.count = 0;
      this.fields = 2;
      this.wrong = null;
    }

    feed(slice) {
      for (const record of this.records.feed(slice)) this.take(record);
    }

    take(record) {
      this.count += 1;
      if (this.wrong !== null) return;
      const [object, key] = record;
      if (this.count === 1) {
        this.check(object === "object" && key === "key", "isn't the header `object,key`");
        this.fields = record.length;
      } else if (this.check(record.length === this.fields && /^[0-9]{1,10}$/.test(object) && Number(object) <= MAX_OBJECT, "isn't an object and its key")) {
        if (this.check(!this.names.has(Number(object)), `names object ${object} anew`)) this.names.set(Number(object), key);
      }
    }

    /** Notes what is wrong with the record that was taken last, unless it is right. */
    check(isRight, what) {
      if (!isRight) this.wrong = `Record ${this.count} of the keys ${what}.`;
      return isRight;
    }

    end() {
      for (const record of this.records.end()) this.take(record);
      if (this.records.isQuoted && this.wrong === null) this.wrong = "The keys end within a quoted field.";
      if (this.count === 0) this.wrong = "The file of keys is empty.";
      return { names: this.names, wrong: this.wrong };
    }
  }

  return { KeyReader };
})();

if (typeof module === "object") module.exports = TopkKeys;

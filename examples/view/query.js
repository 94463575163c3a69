"use strict";

/** Query lines of topk: an expression over lists, and its value at a list of grades. */
const TopkQuery = (() => {
  const MAX_DEPTH = 8;
  const MAX_LISTS = 8;
  const N = "(0|[1-9][0-9]*)";
  const LINE = new RegExp(`^top ${N} by (\\S+) using (ta|nra|ca|fa|taz|theta ${N}/${N}|early ${N})(?: cost ${N} ${N})?(?: room ${N})?$`);
  const NAME = /[A-Za-z][A-Za-z0-9_]{0,31}/y;
  const NUMBER = /0|[1-9][0-9]*/y;

  const ALGORITHMS = {
    ta: "the threshold algorithm",
    nra: "the algorithm without random access",
    ca: "the combined algorithm",
    fa: "Fagin's algorithm",
    theta: "the threshold algorithm within a factor",
    early: "the threshold algorithm stopped early",
    taz: "the threshold algorithm over the lists that can be read in order",
  };

  /** The algorithms that stop by the threshold, and know all grades of each object that a row has shown. */
  const BY_THRESHOLD = ["ta", "theta", "early", "taz"];

  /** Those that stop where no other object's high is above the k-th low. */
  const BY_BOUNDS = ["nra", "ca"];

  /** Those whose certificates state within which factor of the best an answer is. */
  const GUARANTEED = ["theta", "early"];

  const least = (values) => values.reduce((one, other) => (other < one ? other : one));
  const greatest = (values) => values.reduce((one, other) => (other > one ? other : one));
  const total = (values) => values.reduce((one, other) => one + other);

  /** The lower one of the two middle values, where their number is even. */
  function median(values) {
    const sorted = [...values].sort((one, other) => (one < other ? -1 : one > other ? 1 : 0));
    return sorted[Math.floor((sorted.length + 1) / 2) - 1];
  }

  const OPERATORS = { min: least, max: greatest, sum: total, median, wsum: total };

  /** Reads an expression from the left; `names` are its lists in the order of their first use. */
  class ExpressionReader {
    constructor(text) {
      this.text = text;
      this.at = 0;
      this.names = [];
    }

    /** The whole text as an expression. */
    whole() {
      const root = this.node(1);
      if (this.at !== this.text.length) this.refuse();
      return root;
    }

    node(depth) {
      const word = this.word(NAME);
      if (Object.hasOwn(OPERATORS, word) && this.text[this.at] === "(") return this.operation(word, depth);
      return { list: this.place(word) };
    }

    operation(operator, depth) {
      if (depth === MAX_DEPTH) this.refuse();
      const terms = [];
      do {
        this.at += 1;
        const weight = operator === "wsum" ? this.weight() : 1n;
        terms.push({ weight, node: this.node(depth + 1) });
      } while (this.text[this.at] === ",");
      this.character(")");
      return { operator, terms };
    }

    weight() {
      const weight = BigInt(this.word(NUMBER));
      this.character("*");
      return weight;
    }

    place(name) {
      if (!this.names.includes(name)) this.names.push(name);
      if (this.names.length > MAX_LISTS) this.refuse();
      return this.names.indexOf(name);
    }

    word(pattern) {
      pattern.lastIndex = this.at;
      const found = pattern.exec(this.text);
      if (found === null) this.refuse();
      this.at = pattern.lastIndex;
      return found[0];
    }

    character(wanted) {
      if (this.text[this.at] !== wanted) this.refuse();
      this.at += 1;
    }

    refuse() {
      throw new SyntaxError(`no expression at its character ${this.at + 1}`);
    }
  }

  /** The query that a line spells: `factor` is that of `theta`, `depth` that of `early`. Throws a `SyntaxError` where it spells none. */
  function read(line) {
    const found = LINE.exec(line);
    if (found === null) throw new SyntaxError("no query");
    const [, k, expression, algorithm, p, q, depth, sorted = "1", random = "1", room] = found;
    const reader = new ExpressionReader(expression);
    const factor = p === undefined ? null : { p: BigInt(p), q: BigInt(q) };
    if (factor !== null && (factor.q === 0n || factor.p < factor.q)) throw new SyntaxError("its factor isn't 1 or more");
    return {
      line,
      k: Number(k),
      expression: reader.whole(),
      names: reader.names,
      algorithm: algorithm.split(" ")[0],
      factor,
      depth: depth === undefined ? null : Number(depth),
      costs: { sorted: BigInt(sorted), random: BigInt(random) },
      room: room === undefined ? null : Number(room),
    };
  }

  /** The value of an expression at grades, one BigInt for each list. */
  function value(node, grades) {
    if (node.operator === undefined) return grades[node.list];
    return OPERATORS[node.operator](node.terms.map((term) => term.weight * value(term.node, grades)));
  }

  /** Whether no part of an expression passes 2^53 while no grade is above this one. */
  function isSmall(node, grade) {
    if (node.operator === undefined) return true;
    const greatest = (term) => term.weight * value(term.node, Array(MAX_LISTS).fill(grade));
    const sum = total(node.terms.map(greatest));
    return sum <= BigInt(Number.MAX_SAFE_INTEGER) && node.terms.every((term) => isSmall(term.node, grade));
  }

  /** What `value` does, with its numbers made by `numbers`, as a function of grades alone. Weights stand in sums alone. */
  function compiled(node, numbers) {
    const { list, operator } = node;
    if (operator === undefined) return numbers === Number ? (grades) => grades[list] : (grades) => numbers(grades[list]);
    const weights = node.terms.map((term) => numbers(term.weight));
    const parts = node.terms.map((term) => compiled(term.node, numbers));
    if (OPERATORS[operator] !== total) return (grades) => OPERATORS[operator](parts.map((part) => part(grades)));
    return (grades) => {
      let sum = numbers(0);
      for (let place = 0; place < parts.length; place += 1) sum += weights[place] * parts[place](grades);
      return sum;
    };
  }

  /**
   * The value of an expression as a function of grades, which are Numbers up to the greatest grade.
   * Values are Numbers too, where none can pass 2^53, which is many times quicker, and else BigInt; both compare alike.
   */
  const valuer = (expression, greatestGrade) => compiled(expression, isSmall(expression, BigInt(greatestGrade)) ? Number : BigInt);

  return { ALGORITHMS, BY_THRESHOLD, BY_BOUNDS, GUARANTEED, read, value, valuer };
})();

if (typeof module === "object") module.exports = TopkQuery;

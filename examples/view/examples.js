"use strict";

/** The certificates that the page shows on demand: what topk writes of one bundle with `using ta` and with `using nra`. */
const TopkExamples = (() => {
  const TA = `certificate 1
query top 1 by sum(A,B) using ta
count 3
answer 2 1500 1500
stop depth 2 sorted 4 random 3 cost 7
s A 1 900
s B 2 700
r B 1 500
r A 2 800
s A 2 800
s B 3 600
r A 3 100
end
`;
  const NRA = `certificate 2
query top 1 by sum(A,B) using nra
count 3
answer 2 1500 1500
stop depth 2 sorted 4 random 0 cost 4
s A 1 900
s B 2 700
s A 2 800
s B 3 600
end
`;

  return { one: TA, two: TA + NRA };
})();

if (typeof module === "object") module.exports = TopkExamples;

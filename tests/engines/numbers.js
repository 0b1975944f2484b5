// Numbers by chance that are the same in each run.
'use strict';

// A generator of whole numbers below a bound, by a fixed seed (xorshift).
function numbers(seed) {
  let state = seed >>> 0 || 1;
  return (bound) => {
    state ^= state << 13; state >>>= 0;
    state ^= state >>> 17;
    state ^= state << 5; state >>>= 0;
    return state % bound;
  };
}

module.exports = { numbers };

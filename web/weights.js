// Converts doubles to whole numbers of 64 bits in the same order, because the module needs whole weights.
//
// The number has the bits of the double. If the sign is set, all other bits are inverted. -0 counts as 0.

const MOST = 2n ** 63n - 1n;

// The weights of links as whole numbers, at the even indices.
export const bitsOf = links => new BigInt64Array(links.buffer, links.byteOffset, links.length / 2);

// Writes doubles into the weights of links.
export function putWeights(links, weights) {
  const doubles = new Float64Array(links.buffer, links.byteOffset, links.length / 2), bits = bitsOf(links);
  for (let i = 0; i < weights.length; i++) {
    doubles[2 * i] = weights[i] + 0;
    if (weights[i] < 0) bits[2 * i] ^= MOST;
  }
}

// The weights of links as doubles: whole numbers if they are exact, or else the doubles that were written.
export function weightsOf(links, isExact) {
  const bits = bitsOf(links), weights = new Float64Array(links.length / 4), word = new BigInt64Array(weights.buffer);
  for (let i = 0; i < weights.length; i++) {
    if (isExact) weights[i] = Number(bits[2 * i]);
    else word[i] = bits[2 * i] < 0n ? bits[2 * i] ^ MOST : bits[2 * i];
  }
  return weights;
}

// The sum of doubles, rounded only once: partial sums that don't overlap keep what each addition rounds off
// (Shewchuk 1997).
function sumOf(values) {
  const parts = [];
  for (const value of values) {
    let sum = value, count = 0;
    for (const part of parts) {
      const isLess = Math.abs(sum) < Math.abs(part), large = isLess ? part : sum, small = isLess ? sum : part;
      sum = large + small;
      const lost = small - (sum - large);
      if (lost) parts[count++] = lost;
    }
    parts.length = count;
    parts.push(sum);
  }
  const sum = parts.reduceRight((all, part) => all + part, 0);
  return Number.isNaN(sum) ? values.reduce((all, value) => all + value, 0) : sum; // it overflows
}

// The sum of a forest's weights. For whole numbers it is an exact BigInt.
export function totalOf(links, isExact) {
  if (!isExact) return sumOf(weightsOf(links, false));
  const bits = bitsOf(links);
  let total = 0n;
  for (let i = 0; i < bits.length; i += 2) total += bits[i];
  return total;
}

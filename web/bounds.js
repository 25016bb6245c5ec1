// The least and the greatest of these numbers, or Infinity and -Infinity if there are none.
export function boundsOf(values, step = 1, begin = 0) {
  let low = Infinity, high = -Infinity;
  for (let i = begin; i < values.length; i += step) {
    if (values[i] < low) low = values[i];
    if (values[i] > high) high = values[i];
  }
  return { low, high };
}

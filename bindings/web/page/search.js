// Binary search in lists in ascending order.

/** Returns the index of the first number in an ascending list that is `wanted` or more. */
export function firstFrom(list, wanted) {
  let low = 0;
  let high = list.length;
  while (low < high) {
    const middle = (low + high) >> 1;
    if (list[middle] < wanted) low = middle + 1;
    else high = middle;
  }
  return low;
}

/** Returns the last of `count` items that begins at or before `wanted`. `startOf` returns the start of an item; the starts ascend. */
export function lastAtOrBefore(startOf, wanted, count) {
  let low = 0;
  let high = count;
  while (high - low > 1) {
    const middle = (low + high) >> 1;
    if (startOf(middle) <= wanted) low = middle;
    else high = middle;
  }
  return low;
}

// Growing columns of numbers, and searches in ascending ones.

/** What has not happened: later than every event. */
export const NEVER = 0x3fffffff;

/** A column of numbers that grows at its end. */
export class Column {
  constructor(Kind = Int32Array) {
    this.array = new Kind(256);
    this.length = 0;
  }

  push(value) {
    if (this.length === this.array.length) {
      const wider = new this.array.constructor(this.length * 2);
      wider.set(this.array);
      this.array = wider;
    }
    this.array[this.length] = value;
    this.length += 1;
  }

  at(place) {
    return this.array[place];
  }

  set(place, value) {
    this.array[place] = value;
  }
}

/** The last place at which an ascending list holds at most the value, or -1; `at` gives the item at a place. */
export function lastAtMost(length, value, at) {
  let low = 0;
  let high = length;
  while (low < high) {
    const middle = (low + high) >> 1;
    if (at(middle) <= value) low = middle + 1;
    else high = middle;
  }
  return low - 1;
}

/** The same for a plain or typed array. */
export function lastOf(array, value) {
  return lastAtMost(array.length, value, (place) => array[place]);
}

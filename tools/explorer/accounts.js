// The ledger, reckoned from the lines of a trace, at every event.
import { Column, lastAtMost } from "./columns.js";

export const COUNTS = ["granted", "entered", "hops", "evals", "live", "left", "gone"];
const OF_LEDGER = ["granted", "hops", "evals", "live", "left"];

/** What came in is what was paid, is live, was left or went out of the trace's sight. */
function isBalanced(sums) {
  return sums.granted + sums.entered === sums.hops + sums.evals + sums.live + sums.left + sums.gone;
}

/** The counts of one family after each event that changed them. */
export class Account {
  constructor(name) {
    this.name = name;
    this.sums = Object.fromEntries(COUNTS.map((count) => [count, 0]));
    this.rows = [];
    this.isTouched = false;
    this.isGranted = false;
  }
}

/** The accounts of all families, by order of their first line. */
export class Accounts {
  constructor() {
    this.list = [];
    this.byName = new Map();
    this.touched = [];
    this.events = new Column();
    this.columns = Object.fromEntries(COUNTS.map((count) => [count, new Column(Float64Array)]));
    /** The families in order of their first grants, as the ledger has them. */
    this.grants = [];
    /** The first event after which an account doesn't balance, as its place and family. */
    this.unbalanced = null;
  }

  /** The place of a family's account, which is opened where there is none. */
  placeOf(name) {
    let place = this.byName.get(name);
    if (place === undefined) {
      place = this.list.length;
      this.byName.set(name, place);
      this.list.push(new Account(name));
    }
    return place;
  }

  add(place, count, amount) {
    const account = this.list[place];
    account.sums[count] += amount;
    if (count === "granted" && !account.isGranted) {
      account.isGranted = true;
      this.grants.push(place);
    }
    if (!account.isTouched) {
      account.isTouched = true;
      this.touched.push(place);
    }
  }

  /** Keeps the counts that the event changed. */
  close(event) {
    for (const place of this.touched) {
      const account = this.list[place];
      account.isTouched = false;
      account.rows.push(this.events.length);
      this.events.push(event);
      for (const count of COUNTS) this.columns[count].push(account.sums[count]);
      if (!this.unbalanced && !isBalanced(account.sums)) this.unbalanced = { event, family: account.name };
    }
    this.touched.length = 0;
  }

  /** The counts of a family after an event. */
  after(place, event) {
    const { rows } = this.list[place];
    const at = lastAtMost(rows.length, event, (row) => this.events.at(rows[row]));
    return Object.fromEntries(COUNTS.map((count) => [count, at < 0 ? 0 : this.columns[count].at(rows[at])]));
  }

  /** The greatest number that each count reaches. */
  greatest() {
    const most = (column) => column.array.subarray(0, column.length).reduce((top, it) => Math.max(top, it), 0);
    return Object.fromEntries(COUNTS.map((count) => [count, most(this.columns[count])]));
  }

  /** The first event that changed a family's counts, or Infinity. */
  beginning(place) {
    const [row] = this.list[place].rows;
    return row === undefined ? Infinity : this.events.at(row);
  }

  /** All changes of a family's counts, each with its event. */
  history(place) {
    return this.list[place].rows.map((row) => ({
      event: this.events.at(row),
      ...Object.fromEntries(COUNTS.map((count) => [count, this.columns[count].at(row)])),
    }));
  }
}

function rowText(row) {
  return `${row.family} ${OF_LEDGER.map((count) => `${count} ${row[count]}`).join(" ")}`;
}

/** Compares the ledger that a trace has with what was reckoned. Answers the differences in words, none where they are the same. */
export function differences(accounts, rows) {
  const found = [];
  const seen = new Set();
  rows.forEach((row, place) => {
    const at = accounts.byName.get(row.family);
    const reckoned = at === undefined ? null : { family: row.family, ...accounts.list[at].sums };
    if (seen.has(row.family)) found.push(`${row.family} has two rows`);
    else if (!reckoned) found.push(`${row.family} has a row, and no line names it`);
    else if (rowText(reckoned) !== rowText(row)) found.push(`the trace has ${rowText(row)}, the lines make ${rowText(reckoned)}`);
    else if (accounts.grants[place] !== at) found.push(`${row.family} has its row in another place than the order of first grants`);
    seen.add(row.family);
  });
  for (const at of accounts.grants) {
    if (!seen.has(accounts.list[at].name)) found.push(`${accounts.list[at].name} has no row`);
  }
  return found;
}

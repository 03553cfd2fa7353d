// A thousand misuses, made from a seed: each throws what it should and changes nothing, so that the row after it is the
// one that a second supervisor writes which never saw it.

import assert from "node:assert/strict";
import test from "node:test";
import { Library, SdmError, Status, Supervisor } from "../sdm.mjs";
import { drawer, journeyOf, library } from "./inputs.mjs";

const MISUSES = 1000;
const NO_NUMBERS = [undefined, null, "5", "", 5.5, NaN, Infinity, -Infinity, 5n, {}, [], [5], true, Symbol("5"), () => 5, new Date(5)];
const OUTSIDE = [-1, 2 ** 32, -(2 ** 31) - 1, 2 ** 53, -(2 ** 53), 1e300, 2 ** 31];
const NO_RECORDS = [undefined, null, 5, "read", true, [], [0, 1, 2, 3, 4, 5, 6], Symbol("read"), new Map(), () => ({})];
const NO_DATA = [undefined, null, 5, {}, [], [118, 101], new ArrayBuffer(8), new Int8Array(8), Symbol("data"), Object.create(Uint8Array.prototype)];
const READING = { time_ds: 0, est_mm: 0, min_mm: 0, max_mm: 0, speed_mm_s: 0, accel_cm_s2: 0, under_mm_s: 0 };
// The calls, each with a record that is whole.
const CALLS = {
  cycle: READING,
  display: READING,
  causes: READING,
  wouldCover: READING,
  wouldCoverUpTo: READING,
  end: { eoa_cm: 90000, svl_cm: 95000, release_kmh: 0 },
  endCalculated: { eoa_cm: 90000, svl_cm: 95000, trip_cm: 91000 },
  limit: { loa_cm: 90000, speed_kmh: 50 },
  restrict: { id: 1, start_cm: 10, end_cm: 20, speed_kmh: 50 },
  revoke: { id: 1 },
};

/** A supervisor that is open beside the one that is tried. */
const isSdmError = (status) => (why) => why instanceof SdmError && (status === undefined || why.status === status);
const isTypeError = (why) => why instanceof TypeError;

/** The kinds of misuse: each a call that must throw, and what. */
const KINDS = [
  ({ supervisor, pick, call, record, name }) =>
    [() => supervisor[call]({ ...record, [name]: pick(NO_NUMBERS.slice(1)) }), isTypeError],
  ({ supervisor, pick, call, record, name }) =>
    [() => supervisor[call]({ ...record, [name]: pick(OUTSIDE.slice(1, 6)) }), isSdmError(Status.OUT_OF_RANGE)],
  ({ supervisor, pick, call }) => [() => supervisor[call](pick(NO_RECORDS)), isTypeError],
  ({ supervisor, call, record }) => [() => supervisor[call]({ ...record, speed: 5 }), isTypeError],
  ({ supervisor, call, record, first }) => {
    const { [first]: _, ...less } = record;
    return [() => supervisor[call](less), isTypeError];
  },
  ({ supervisor, call, record, first }) =>
    [() => supervisor[call]({ ...record, get [first]() { throw new EvalError("a getter"); } }), (why) => why instanceof EvalError],
  ({ sdm, data, call, record, first }) => {
    const closing = sdm.open(data);
    const given = { ...record, get [first]() { closing.close(); return record[first]; } };
    return [() => closing[call](given), isSdmError(Status.CLOSED)];
  },
  ({ sdm, data, call, record }) => {
    const closed = sdm.open(data);
    closed.close();
    return [() => closed[call](record), isSdmError(Status.CLOSED)];
  },
  ({ sdm, pick }) => [() => sdm.open(pick(NO_DATA)), isTypeError],
  ({ sdm, data, draw }) => [() => sdm.open(data.slice(0, draw(data.length - 20))), isSdmError()],
  ({ sdm, draw }) => [() => sdm.open(Uint8Array.from({ length: 1 + draw(3000) }, () => draw(256))), isSdmError(Status.BAD_DATA)],
  ({ supervisor, pick }) => [() => supervisor.takeOver(pick([supervisor, null, undefined, {}, 5, Object.create(Supervisor.prototype)])), isTypeError],
  ({ call, record }) => [() => Supervisor.prototype[call].call({}, record), isTypeError],
  ({ call, record }) => [() => Object.create(Supervisor.prototype)[call](record), isTypeError],
  () => [() => new Supervisor(), isTypeError],
  () => [() => new Library({}), isTypeError],
  ({ supervisor, pick }) => [() => supervisor.take({ ...READING, kind: pick(["stop", "__proto__", "constructor", "", 5, null]) }), isTypeError],
  ({ supervisor, row }) => [() => supervisor.cycle({ ...READING, time_ds: row.time_ds - 1 }), isSdmError(Status.TIME_BACK)],
  ({ supervisor, draw }) => [() => supervisor.revoke({ id: 1000 + draw(9000) }), isSdmError(Status.UNKNOWN_ID)],
  ({ supervisor, draw }) => [() => supervisor.end({ eoa_cm: 1000, svl_cm: draw(1000) }), isSdmError(Status.SVL_BEFORE_EOA)],
  ({ supervisor }) => [() => supervisor.restrict(new Proxy({}, { get() { throw new EvalError("a proxy"); } })), (why) => why instanceof EvalError],
];

test(`${MISUSES} misuses throw and change nothing`, async () => {
  const sdm = await library(), { data } = await journeyOf("approach"), draw = drawer(83);
  const supervisor = sdm.open(data), other = sdm.open(data), pick = (values) => values[draw(values.length)];
  const tried = new Set();
  let row = supervisor.cycle(other.cycle({ ...READING, time_ds: 1 }) && { ...READING, time_ds: 1 });
  for (let misuse = 0; misuse < MISUSES; misuse += 1) {
    const call = pick(Object.keys(CALLS)), record = CALLS[call], kind = draw(KINDS.length);
    const [first] = Object.keys(record), name = pick(Object.keys(record));
    const [does, isDue] = KINDS[kind]({ sdm, data, supervisor, draw, pick, call, record, first, name, row });
    assert.throws(does, isDue, `misuse ${misuse}, of kind ${kind}, of ${call}, ${name}`);
    tried.add(kind);
    const front = draw(900000), reading = { ...READING, time_ds: 2 + misuse, est_mm: front, min_mm: front - 10, max_mm: front + 10, speed_mm_s: draw(50000) };
    row = supervisor.cycle(reading);
    assert.deepEqual(row, other.cycle(reading));
    assert.deepEqual(supervisor.display(reading), other.display(reading));
    assert.deepEqual(supervisor.causes(reading), other.causes(reading));
  }
  assert.equal(tried.size, KINDS.length);
  assert.equal(sdm.isDropped, false);
});

// What a supervisor answers: README's example, whose rows are worked by hand, and each refusal with its status.

import assert from "node:assert/strict";
import { readFile } from "node:fs/promises";
import test from "node:test";
import { Library, SdmError, State, Status, Supervision, load } from "../sdm.mjs";
import { rowText } from "../journey.mjs";
import { fileOf, journeyOf, library } from "./inputs.mjs";

const refusedBy = (status, line) => (why) =>
  why instanceof SdmError && why.status === status && (line === undefined || why.line === line);

test("the rows of the example are those that are worked by hand", async () => {
  const sdm = await library(), { data, records } = await journeyOf("approach"), supervisor = sdm.open(data);
  const rows = records.map((record) => supervisor.take(record));
  assert.equal(rows.map(rowText).join(""), await fileOf("approach", "rows"));
  assert.deepEqual(rows[1], {
    time_ds: 5, state: State.TARGET, status: Supervision.INTERVENTION, tco: true, sb: true, eb: true, covered: false,
    ceiling_kmh: 160, ebi_mm: 800000, sbi_mm: 800000, warning_mm: 760000, permitted_mm: 720000, indication_mm: 540000,
  });
  supervisor.close();
});

test("what would be covered is what is covered then", async () => {
  // The second reading is 10 mm past its EBI, as README says.
  const sdm = await library(), { data, records } = await journeyOf("approach"), supervisor = sdm.open(data);
  for (const [index, covered] of [true, false, true, true].entries()) {
    const { kind: _, ...reading } = records[index];
    assert.equal(supervisor.wouldCover(reading), covered);
    assert.equal(supervisor.wouldCoverUpTo(reading), covered);
    assert.equal(supervisor.cycle(reading).covered, covered);
  }
  supervisor.close();
});

test("a refusal has its status and changes nothing", async () => {
  const sdm = await library(), { data, records } = await journeyOf("approach"), supervisor = sdm.open(data);
  const { kind: _, ...reading } = records[2];
  records.slice(0, 3).forEach((record) => supervisor.take(record));
  const refusals = [
    [() => supervisor.cycle({ ...reading, time_ds: 9 }), Status.TIME_BACK],
    [() => supervisor.cycle({ ...reading, min_mm: reading.est_mm + 1 }), Status.OUT_OF_RANGE],
    [() => supervisor.cycle({ ...reading, speed_mm_s: -1 }), Status.OUT_OF_RANGE],
    [() => supervisor.cycle({ ...reading, est_mm: 2 ** 31 }), Status.OUT_OF_RANGE],
    [() => supervisor.end({ eoa_cm: 100, svl_cm: 99 }), Status.SVL_BEFORE_EOA],
    [() => supervisor.end({ eoa_cm: 100, svl_cm: 200001 }), Status.BEYOND_TRACK],
    [() => supervisor.end({ eoa_cm: 100, svl_cm: 200, release_kmh: 501 }), Status.BAD_SPEED],
    [() => supervisor.endCalculated({ eoa_cm: 100, svl_cm: 200, trip_cm: 99 }), Status.BAD_TRIP],
    [() => supervisor.limit({ loa_cm: 100, speed_kmh: 0 }), Status.BAD_SPEED],
    [() => supervisor.restrict({ id: 1, start_cm: 5, end_cm: 5, speed_kmh: 10 }), Status.BAD_PLACES],
    [() => supervisor.restrict({ id: 65536, start_cm: 5, end_cm: 6, speed_kmh: 10 }), Status.OUT_OF_RANGE],
    [() => supervisor.revoke({ id: 1 }), Status.UNKNOWN_ID],
  ];
  for (const [call, status] of refusals) assert.throws(call, refusedBy(status));
  assert.equal(rowText(supervisor.cycle(reading)), (await fileOf("approach", "rows")).split(/(?<=\n)/)[2]);
  supervisor.close();
});

test("32 restrictions are held, and an identity once", async () => {
  const sdm = await library(), { data } = await journeyOf("approach"), supervisor = sdm.open(data);
  const restriction = (id) => ({ id, start_cm: 10, end_cm: 20, speed_kmh: 80, is_delayed: true });
  for (let id = 0; id < 32; id += 1) supervisor.restrict(restriction(id));
  assert.throws(() => supervisor.restrict(restriction(99)), refusedBy(Status.FULL));
  supervisor.revoke({ id: 7 });
  assert.throws(() => supervisor.restrict(restriction(3)), refusedBy(Status.ID_IN_USE));
  supervisor.restrict(restriction(7));
  supervisor.close();
});

test("data that are refused carry the program's line", async () => {
  const sdm = await library(), { data } = await journeyOf("approach");
  assert.throws(() => sdm.open("version = 1\n"), (why) => refusedBy(Status.BAD_DATA)(why) && why.line.startsWith("sdm: bad data: "));
  const before = data.replace("svl = 100000", "svl = 99999");
  assert.throws(() => sdm.open(before), refusedBy(Status.REFUSED, "sdm: refused: supervised location before end"));
  assert.throws(() => sdm.open(new Uint8Array()), refusedBy(Status.BAD_DATA));
});

test("the next supervisor takes over", async () => {
  const sdm = await library(), { data, records } = await journeyOf("approach");
  const due = (await fileOf("approach", "rows")).split(/(?<=\n)/), before = sdm.open(data), next = sdm.open(data);
  records.slice(0, 2).forEach((record) => before.take(record));
  next.takeOver(before);
  before.close();
  assert.deepEqual(records.slice(2).map((record) => rowText(next.take(record))), due.slice(2, 4));
  const third = sdm.open(data);
  third.take(records[0]);
  assert.throws(() => third.takeOver(next), refusedBy(Status.NOT_FRESH));
  assert.throws(() => third.takeOver(before), refusedBy(Status.CLOSED));
});

test("what is closed answers CLOSED, and may be closed again", async () => {
  const sdm = await library(), { data, records } = await journeyOf("approach"), supervisor = sdm.open(data);
  supervisor.close();
  supervisor.close();
  assert.throws(() => supervisor.take(records[0]), refusedBy(Status.CLOSED));
  assert.throws(() => supervisor.revoke({ id: 1 }), refusedBy(Status.CLOSED));
});

test("two libraries have nothing in common", async () => {
  const module = await WebAssembly.compile(await readFile(new URL("../sdm.wasm", import.meta.url)));
  const one = new Library(module), other = await load(module), { data } = await journeyOf("approach");
  assert.throws(() => one.open(data).takeOver(other.open(data)), TypeError);
});

// Memory: none is lost over ten thousand openings, whether they are closed, refused or forgotten; it grows under a
// supervisor without harm; and an instance that trapped says so.

import assert from "node:assert/strict";
import test from "node:test";
import { setTimeout as later } from "node:timers/promises";
import { Library, SdmError, SdmTrap, Status } from "../sdm.mjs";
import { LAYOUT } from "../structs.mjs";
import { journeyOf, library } from "./inputs.mjs";

const OPENINGS = 10000;

test(`${OPENINGS} openings take no more memory than the first hundred`, async () => {
  const sdm = await library(), { data, records } = await journeyOf("approach"), bad = data.replace("[national]", "[nation]");
  let before = 0;
  for (let opening = 0; opening < OPENINGS; opening += 1) {
    if (opening === 100) before = sdm.bytes;
    const supervisor = sdm.open(data), next = sdm.open(data);
    records.forEach((record) => supervisor.take(record));
    next.takeOver(supervisor);
    supervisor.close();
    next.close();
    assert.throws(() => sdm.open(bad), SdmError);
  }
  assert.ok(before > 0);
  assert.equal(sdm.bytes, before);
});

test("supervisors that are forgotten are closed", { skip: globalThis.gc === undefined && "node has no --expose-gc" }, async () => {
  const sdm = await library(), { data } = await journeyOf("approach");
  let before = 0;
  for (let round = 0; round < 20; round += 1) {
    for (let opening = 0; opening < 50; opening += 1) sdm.open(data);
    globalThis.gc();
    await later(5);
    if (round === 4) before = sdm.bytes;
  }
  assert.equal(sdm.bytes, before);
});

test("a supervisor works on while memory grows for others", async () => {
  const sdm = await library(), { data, records } = await journeyOf("approach"), supervisor = sdm.open(data);
  const undisturbed = (await library()).open(data), begun = sdm.bytes;
  for (const record of records) {
    for (const before = sdm.bytes; sdm.bytes === before; ) sdm.open(data);
    assert.deepEqual(supervisor.take(record), undisturbed.take(record));
  }
  assert.ok(sdm.bytes >= begun + records.length * 65536);
});

test("where memory is refused the status says so, and what is open works on", async () => {
  const sdm = await library(), { data, records } = await journeyOf("approach"), supervisor = sdm.open(data);
  const due = records.map((record) => sdm.open(data).take(record));
  const long = new Uint8Array(2 ** 28).fill(32);
  const isRefused = (why) => why instanceof SdmError && [Status.NO_MEMORY, Status.BAD_DATA].includes(why.status);
  assert.throws(() => sdm.open(long), isRefused);
  assert.deepEqual(supervisor.take(records[0]), due[0]);
});

/** A module that has what a library asks for, and traps at each reading. */
function trappingModule() {
  const section = (kind, ...body) => [kind, body.length, ...body];
  const name = (text) => [text.length, ...new TextEncoder().encode(text)];
  const exported = { memory: [2, 0], sdm_layout: [0, 0], block_take: [0, 1], block_free: [0, 2], sdm_open: [0, 3], sdm_cycle: [0, 4], sdm_close: [0, 2] };
  const I32 = 0x7f, I64 = 0x7e, codes = [[0x41, LAYOUT], [0x42, 0xc0, 0], [], [0x41, 0], [0]];
  const types = [[0x60, 0, 1, I32], [0x60, 1, I64, 1, I64], [0x60, 1, I64, 0], [0x60, 4, I64, I64, I64, I64, 1, I32], [0x60, 3, I64, I64, I64, 1, I32]];
  return new WebAssembly.Module(Uint8Array.from([
    0, 0x61, 0x73, 0x6d, 1, 0, 0, 0,
    ...section(1, types.length, ...types.flat()),
    ...section(3, 5, 0, 1, 2, 3, 4),
    ...section(5, 1, 0, 1),
    ...section(7, Object.keys(exported).length, ...Object.entries(exported).flatMap(([key, at]) => [...name(key), ...at])),
    ...section(10, codes.length, ...codes.flatMap((code) => [code.length + 2, 0, ...code, 0x0b])),
  ]));
}

test("an instance that trapped is dropped and says so", async () => {
  const sdm = new Library(trappingModule()), supervisor = sdm.open("data"), { records } = await journeyOf("approach");
  assert.equal(sdm.isDropped, false);
  assert.throws(() => supervisor.take(records[0]), (why) => why instanceof SdmTrap && why.call === "sdm_cycle");
  assert.equal(sdm.isDropped, true);
  assert.throws(() => supervisor.take(records[0]), SdmTrap);
  assert.throws(() => sdm.open("data"), SdmTrap);
  supervisor.close();
  assert.equal(sdm.bytes, 0);
});

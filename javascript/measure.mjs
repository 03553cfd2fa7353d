// node measure.mjs MODULE.wasm ROUNDS < INPUT: what a reading of an input of `run` takes, as c/portable/time_readings.c tells
// it: the least of the mean times of some rounds, with a row as an object, and of the openings.

import { readFileSync } from "node:fs";
import { pathToFileURL } from "node:url";
import { dividingLine, fieldsOf, recordOf } from "./journey.mjs";
import { load } from "./sdm.mjs";

const [module, rounds] = process.argv.slice(2);
const input = new Uint8Array(readFileSync(0)), divided = dividingLine(input);
const records = [...fieldsOf(Buffer.from(input.subarray(divided.records)).toString("latin1"))].map(recordOf);
const readings = records.filter(({ kind }) => kind === "read").length;
const library = await load(pathToFileURL(module));

/** Processor time so far, in ns. */
const now = () => {
  const { user, system } = process.cpuUsage();
  return 1000 * (user + system);
};

let leastOpening = Infinity, leastTaken = Infinity;
for (let round = 0; round < Number(rounds); round += 1) {
  const begun = now(), supervisor = library.open(input.subarray(0, divided.data)), opened = now();
  for (const record of records) supervisor.take(record);
  leastTaken = Math.min(leastTaken, now() - opened);
  leastOpening = Math.min(leastOpening, opened - begun);
  supervisor.close();
}
console.log(`${readings} ${Math.round(leastTaken / readings)} ${Math.round(leastOpening / 1000)}`);

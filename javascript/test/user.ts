// A program of a user in TypeScript, which `tsc --strict` must take over the package's types. Below each @ts-expect-error
// stands a line that they must refuse. scripts/processors/node.py compiles and runs it.

import { Library, SdmError, SdmTrap, State, Status, Supervisor, load } from "sdm";
import type { Causes, Display, Reading, Record, Row } from "sdm";
import { fieldsOf, live, play, recordOf, rowText } from "sdm/journey.mjs";
import type { Ended } from "sdm/journey.mjs";

const AT_REST: Reading = { time_ds: 0, est_mm: 0, min_mm: 0, max_mm: 0, speed_mm_s: 0 };

/** How far the front end is before the place of the emergency brake's intervention, in m; none where there is no such place. */
function roomLeft(row: Row, reading: Reading): number | undefined {
  return row.ebi_mm === null ? undefined : (row.ebi_mm - reading.max_mm) / 1000;
}

/** Whether the brakes must be applied, whatever the library answers. */
export function mustBrake(supervisor: Supervisor, reading: Reading): boolean {
  try {
    const row: Row = supervisor.cycle(reading);
    return row.eb || row.sb || !row.covered;
  } catch (why) {
    if (why instanceof SdmError) return why.status !== Status.TIME_BACK;
    if (why instanceof SdmTrap) return why.call.length > 0;
    throw why;
  }
}

/** The rows of a whole input, record by record, as `run` writes them. */
export async function rowsOf(data: string, records: string): Promise<string> {
  const library: Library = await load();
  const supervisor = library.open(new TextEncoder().encode(data));
  let text = "";
  for (const fields of fieldsOf(records)) {
    const record = recordOf(fields);
    if ("fault" in record) throw new Error(record.fault);
    const row = supervisor.take(record);
    if (row !== null) text += rowText(row);
  }
  supervisor.close();
  return text;
}

/** All that a supervisor takes and answers, in types. */
export function everyCall(library: Library, data: string): [Display, Causes, number | undefined] {
  const before = library.open(data), supervisor = library.open(data);
  const records: Record[] = [
    { kind: "end", eoa_cm: 90000, svl_cm: 95000 },
    { kind: "endcalc", eoa_cm: 90000, svl_cm: 95000, trip_cm: 91000 },
    { kind: "limit", loa_cm: 90000, speed_kmh: 50 },
    { kind: "restrict", id: 7, start_cm: 10, end_cm: 20, speed_kmh: 50, is_delayed: true },
    { kind: "revoke", id: 7 },
  ];
  supervisor.takeOver(before);
  before.close();
  for (const record of records) supervisor.take(record);
  const reading: Reading = { ...AT_REST, accel_cm_s2: 0, under_mm_s: 0 };
  const row = supervisor.cycle(reading), place = roomLeft(row, reading);
  const state: State = row.state;
  const found: [Display, Causes, number | undefined] = [supervisor.display(reading), supervisor.causes(reading), place];
  const ahead: boolean = supervisor.wouldCover(reading) && supervisor.wouldCoverUpTo(reading);
  if (ahead !== row.covered) throw new Error("that can't be");
  supervisor.close();
  if (library.isDropped || library.bytes === 0 || state > State.RELEASE) throw new Error("that can't be");
  return found;
}

/** A whole input in one call, and one that comes in pieces. */
export async function inOneCall(library: Library, input: Uint8Array, pieces: AsyncIterable<Uint8Array>): Promise<[Ended, number]> {
  const { code } = await live(library, pieces, (text: string) => text.length);
  return [play(library, "display", input), code];
}

export function refused(library: Library, supervisor: Supervisor, row: Row): unknown[] {
  return [
    // @ts-expect-error a place may be none
    row.ebi_mm + 1,
    // @ts-expect-error a flag is no number
    row.eb === 1,
    // @ts-expect-error a row isn't written
    (row.time = 5),
    // @ts-expect-error a field is spelt wrongly
    supervisor.cycle({ ...AT_REST, acceleration: 5 }),
    // @ts-expect-error a field is missing
    supervisor.cycle({ time_ds: 0, est_mm: 0, min_mm: 0, max_mm: 0 }),
    // @ts-expect-error a number is no text
    supervisor.limit({ loa_cm: "90000", speed_kmh: 50 }),
    // @ts-expect-error there is no such record
    supervisor.take({ kind: "stop" }),
    // @ts-expect-error a record of another kind
    supervisor.take({ kind: "revoke", loa_cm: 5 }),
    // @ts-expect-error a supervisor is opened
    new Supervisor(),
    // @ts-expect-error a handle isn't seen
    supervisor.handle,
    // @ts-expect-error what takes over is a supervisor
    supervisor.takeOver(library),
    // @ts-expect-error a data part is text or bytes
    library.open([1, 2, 3]),
    // @ts-expect-error load takes time
    load().open(""),
    // @ts-expect-error there is no such status
    Status.BROKEN,
    // @ts-expect-error a number of statuses isn't written
    (Status.DONE = 5),
    // @ts-expect-error no word of the program
    play(library, "check", new Uint8Array()),
  ];
}

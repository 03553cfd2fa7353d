// The types of sdm.mjs. Names and units are those of the Python package: ds are tenths of a second, mm/s, cm, km/h.

export declare const Status: Readonly<{
  DONE: 0; CLOSED: 1; IN_USE: 2; NO_MEMORY: 3; BAD_DATA: 4; REFUSED: 5; OUT_OF_RANGE: 6; TIME_BACK: 7; SVL_BEFORE_EOA: 8;
  BEYOND_TRACK: 9; BAD_SPEED: 10; BAD_TRIP: 11; FULL: 12; ID_IN_USE: 13; BAD_PLACES: 14; UNKNOWN_ID: 15; NOT_FRESH: 16;
}>;
export type Status = (typeof Status)[keyof typeof Status];

/** The type of speed and distance monitoring. */
export declare const State: Readonly<{ CEILING: 0; TARGET: 1; RELEASE: 2 }>;
export type State = (typeof State)[keyof typeof State];

/** The supervision status. */
export declare const Supervision: Readonly<{ NORMAL: 0; INDICATION: 1; OVERSPEED: 2; WARNING: 3; INTERVENTION: 4 }>;
export type Supervision = (typeof Supervision)[keyof typeof Supervision];

/** The kind of the target that counts: a fall of the speed profile, EOA, SvL, LOA. */
export declare const Target: Readonly<{ NONE: 0; FALL: 1; EOA: 2; SVL: 3; LOA: 4 }>;
export type Target = (typeof Target)[keyof typeof Target];

/** Why a trigger holds. */
export declare const Rule: Readonly<{ NONE: 0; CEILING: 1; TARGET: 2; END: 3; RELEASE_SPEED: 4; NO_SERVICE_BRAKE: 5 }>;
export type Rule = (typeof Rule)[keyof typeof Rule];

/** How a command stands after a reading: a cause of it stands where it is SET, none where it is held. */
export declare const Standing: Readonly<{
  OFF: 0; SET: 1; HELD_TO_PERMITTED_SPEED: 2; HELD_TO_STANDSTILL: 3; HELD_TO_EITHER: 4;
}>;
export type Standing = (typeof Standing)[keyof typeof Standing];

/** A reading of the odometer. */
export interface Reading {
  time_ds: number;
  est_mm: number;
  min_mm: number;
  max_mm: number;
  speed_mm_s: number;
  accel_cm_s2?: number;
  under_mm_s?: number;
}

/** A movement authority to an EOA, with its SvL and a release speed (0: none). */
export interface End {
  eoa_cm: number;
  svl_cm: number;
  release_kmh?: number;
}

/** The same with the calculated release speed for a trip at a place. */
export interface EndCalculated {
  eoa_cm: number;
  svl_cm: number;
  trip_cm: number;
}

/** A movement authority to a limit, which is passed at its speed. */
export interface Limit {
  loa_cm: number;
  speed_kmh: number;
}

/** A temporary speed restriction; where it is delayed its end counts for the rear end of the train. */
export interface Restriction {
  id: number;
  start_cm: number;
  end_cm: number;
  speed_kmh: number;
  is_delayed?: boolean | 0 | 1;
}

/** The end of the restriction with an identity. */
export interface Revocation {
  id: number;
}

/** A record, with what it is in `kind`. */
export type Record =
  | ({ kind: "read" } & Reading)
  | ({ kind: "end" } & End)
  | ({ kind: "endcalc" } & EndCalculated)
  | ({ kind: "limit" } & Limit)
  | ({ kind: "restrict" } & Restriction)
  | ({ kind: "revoke" } & Revocation);

/** What is commanded after a reading; a place is null where there is no such limit. */
export interface Row {
  time_ds: number;
  state: State;
  status: Supervision;
  tco: boolean;
  sb: boolean;
  eb: boolean;
  covered: boolean;
  ceiling_kmh: number;
  ebi_mm: number | null;
  sbi_mm: number | null;
  warning_mm: number | null;
  permitted_mm: number | null;
  indication_mm: number | null;
}

/** What the driver can be shown of a reading. */
export interface Display {
  time_ds: number;
  permitted_kmh: number;
  sbi_kmh: number;
  ebi_kmh: number;
  release_kmh: number;
  target: Target;
  target_kmh: number;
  distance_mm: number;
}

/** The first cause of a trigger. */
export interface Cause {
  rule: Rule;
  target: Target;
  target_kmh: number;
  target_mm: number;
  limit_mm: number;
}

/** How each command stands after a reading, and why it triggers; a trigger that doesn't hold is null. */
export interface Causes {
  time_ds: number;
  tco: Standing;
  sb: Standing;
  eb: Standing;
  over: Cause | null;
  warn: Cause | null;
  serv: Cause | null;
  emer: Cause | null;
}

/** Why a call did nothing: its status, and of data that are refused the program's line. */
export declare class SdmError extends Error {
  readonly status: Status;
  readonly line: string;
}

/** The module trapped: it is dropped with all supervisors in it. */
export declare class SdmTrap extends Error {
  readonly call: string;
}

/** A supervisor of a journey. Each call either does what it says, or throws and changes nothing: SdmError with a status,
 * TypeError for another type than expected, SdmTrap. */
export declare class Supervisor {
  private constructor();
  /** Judges a reading. CLOSED, OUT_OF_RANGE, TIME_BACK. */
  cycle(reading: Reading): Row;
  /** What the driver can be shown of a reading that was judged. CLOSED, OUT_OF_RANGE. */
  display(reading: Reading): Display;
  /** Why a reading that was judged triggers. CLOSED, OUT_OF_RANGE. */
  causes(reading: Reading): Causes;
  /** Whether a reading would be covered, if it came next. CLOSED, OUT_OF_RANGE. */
  wouldCover(reading: Reading): boolean;
  /** Whether each reading is covered or in release speed monitoring whose max safe front end is from `min_mm` to `max_mm`
   * of the asked one, and whose speed with the under-reading and acceleration are at most its own. CLOSED, OUT_OF_RANGE. */
  wouldCoverUpTo(asked: Reading): boolean;
  /** CLOSED, SVL_BEFORE_EOA, BEYOND_TRACK, BAD_SPEED. */
  end(authority: End): void;
  /** CLOSED, SVL_BEFORE_EOA, BEYOND_TRACK, BAD_TRIP. */
  endCalculated(authority: EndCalculated): void;
  /** CLOSED, BEYOND_TRACK, BAD_SPEED. */
  limit(authority: Limit): void;
  /** CLOSED, OUT_OF_RANGE, FULL, ID_IN_USE, BAD_PLACES. */
  restrict(restriction: Restriction): void;
  /** CLOSED, OUT_OF_RANGE, UNKNOWN_ID. */
  revoke(revocation: Revocation): void;
  /** Takes over restrictions, time and commands from the supervisor that ran before, where this one was opened over new
   * data by the same library. CLOSED, NOT_FRESH, BAD_PLACES. */
  takeOver(before: Supervisor): void;
  /** Takes any record: the row of a reading, else null. */
  take(record: Record): Row | null;
  /** Gives the memory back; of one that is closed nothing happens. */
  close(): void;
}

/** The library over one instance of the module. */
export declare class Library {
  constructor(module: WebAssembly.Module);
  /** Opens a supervisor over a data part in TOML. NO_MEMORY, BAD_DATA, REFUSED. */
  open(data: string | Uint8Array): Supervisor;
  /** Whether the module trapped, so that no further call of it is made. */
  readonly isDropped: boolean;
  /** The bytes of memory that the module has taken so far. */
  readonly bytes: number;
}

/** The library over sdm.wasm beside sdm.mjs, or over a module of an URL, of bytes, or compiled before. */
export declare function load(from?: URL | BufferSource | WebAssembly.Module): Promise<Library>;

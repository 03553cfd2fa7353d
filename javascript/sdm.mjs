// The supervisor of sdm for JavaScript, over the WebAssembly module of the library: the calls of c/sdm.h, with the names
// and units of the Python package. The module has a memory of its own. Places in it are known here alone; what comes
// out is made of plain objects. docs/PROCESSORS.md says what is tested of it; none of it is proved.

import { CALLS, DESK_BYTES, FORMS, HANDLE_BYTES, LAYOUT, Rule, STATUS_TEXTS, Status, read, write } from "./structs.mjs";

export { Rule, Standing, State, Status, Supervision, Target } from "./structs.mjs";

/** Why a call did nothing: its status, and of data that are refused the program's line. */
export class SdmError extends Error {
  constructor(status, line = "") {
    super(line || STATUS_TEXTS[status] || `status ${status}`);
    this.name = "SdmError";
    this.status = status;
    this.line = line;
  }
}

/** The module trapped: it is dropped with all supervisors in it, and no further call of it is made. */
export class SdmTrap extends Error {
  constructor(call, cause) {
    super(`the module trapped in ${call} and is dropped: ${cause}`, { cause });
    this.name = "SdmTrap";
    this.call = call;
  }
}

const RANGES = { uint32_t: [0, 2 ** 32 - 1], int32_t: [-(2 ** 31), 2 ** 31 - 1] };

/** A number that a type of C holds; others would be cut off. */
function number(name, value, kind) {
  if (typeof value !== "number" || !Number.isInteger(value)) throw new TypeError(`${name} is no whole number`);
  const [least, most] = RANGES[kind];
  if (value < least || value > most) throw new SdmError(Status.OUT_OF_RANGE, `out of range: ${name} is ${value}`);
  return value;
}

/** The numbers of a record of a kind. All of it is read before the module's memory is looked at, since a getter of the
 * caller may make calls. What isn't of the record is refused, so that no word that is spelt wrongly counts as absent. */
function taken(record, kind) {
  if (record === null || typeof record !== "object") throw new TypeError(`a ${kind} is an object`);
  const numbers = {};
  let known = Object.hasOwn(record, "kind") ? 1 : 0;
  for (const { name, kind: of, absent } of FORMS[kind].fields) {
    let value = record[name];
    if (value !== undefined) known += 1;
    else value = absent;
    numbers[name] = number(name, name.startsWith("is_") && typeof value === "boolean" ? Number(value) : value, of);
  }
  if (Object.keys(record).length > known) {
    throw new TypeError(`a ${kind} has ${FORMS[kind].fields.map(({ name }) => name).join(", ")} and nothing else`);
  }
  return numbers;
}

/** A copy of the bytes of a data part. */
function bytesOf(data) {
  if (typeof data === "string") return new TextEncoder().encode(data);
  if (data instanceof Uint8Array) return new Uint8Array(data);
  throw new TypeError("a data part is a string or a Uint8Array");
}

const mmOf = (place) => (place.is_some ? place.mm : null);
const causeOf = (cause) => (cause.rule === Rule.NONE ? null : cause);

function rowOf(row) {
  return {
    time_ds: row.time_ds,
    state: row.state,
    status: row.status,
    tco: row.tco !== 0,
    sb: row.sb !== 0,
    eb: row.eb !== 0,
    covered: row.covered !== 0,
    ceiling_kmh: row.ceiling_kmh,
    ebi_mm: mmOf(row.ebi),
    sbi_mm: mmOf(row.sbi),
    warning_mm: mmOf(row.warning),
    permitted_mm: mmOf(row.permitted),
    indication_mm: mmOf(row.indication),
  };
}

function causesOf(causes) {
  const { over, warn, serv, emer, ...more } = causes;
  return { ...more, over: causeOf(over), warn: causeOf(warn), serv: causeOf(serv), emer: causeOf(emer) };
}

/** An instance of the module, with a desk in its memory for what calls take and give. */
class Instance {
  #exports;
  #view;
  #desk;
  #trap = null;

  constructor(module) {
    this.#exports = new WebAssembly.Instance(module, {}).exports;
    this.#view = new DataView(this.#exports.memory.buffer);
    this.#desk = this.take(DESK_BYTES);
    if (this.run("sdm_layout") !== LAYOUT) throw new Error("the module is of another layout than structs.mjs");
  }

  get isDropped() {
    return this.#trap !== null;
  }

  /** The memory's bytes so far. */
  get bytes() {
    return this.isDropped ? 0 : this.#exports.memory.buffer.byteLength;
  }

  /** The memory as it is now: a call may have made it grow, and an older view then sees nothing of it. */
  get view() {
    if (this.isDropped) throw this.#trap;
    const { buffer } = this.#exports.memory;
    if (this.#view.buffer !== buffer) this.#view = new DataView(buffer);
    return this.#view;
  }

  /** Makes a call of the module. */
  run(call, ...words) {
    if (this.isDropped) throw this.#trap;
    try {
      return this.#exports[call](...words);
    } catch (cause) {
      this.#trap = new SdmTrap(call, cause);
      this.#exports = this.#view = null;
      throw this.#trap;
    }
  }

  /** A block of memory, all zeros. */
  take(bytes) {
    const at = Number(this.run("block_take", BigInt(bytes)));
    if (at === 0) throw new SdmError(Status.NO_MEMORY);
    new Uint8Array(this.view.buffer, at, bytes).fill(0);
    return at;
  }

  free(at) {
    this.run("block_free", BigInt(at));
  }

  /** Where the object stands that the argument at a place of a call leads to. */
  place(call, index) {
    return this.#desk + CALLS[call][index].at;
  }

  /** Makes a call on a handle, with numbers by their names, or by the names of the structs that have them: what it gives,
   * a struct or a number, or undefined. */
  make(call, handle, numbers) {
    let result = () => undefined;
    const words = CALLS[call].slice(1).map(({ name, kind, at, isGiven }) => {
      if (at === undefined) return numbers[name];
      const place = this.#desk + at;
      if (isGiven) write[kind](this.view, place, numbers[name] ?? numbers);
      else result = () => read[kind](this.view, place);
      return BigInt(place);
    });
    this.check(this.run(call, handle, ...words));
    return result();
  }

  check(status) {
    if (status !== Status.DONE) throw new SdmError(status);
  }
}

/** A supervisor of a journey. Each call either does what it says, or throws and changes nothing. */
export class Supervisor {
  #instance;
  #handle;
  #leftovers;

  /** `Library.open` makes them. */
  constructor(key, instance, handle, leftovers) {
    if (key !== KEY) throw new TypeError("open a supervisor by Library.open");
    this.#instance = instance;
    this.#handle = handle;
    this.#leftovers = leftovers;
    leftovers.register(this, handle, this);
  }

  /** The handle's place; a fault where it is closed. */
  get #at() {
    if (this.#handle === null) throw new SdmError(Status.CLOSED);
    return BigInt(this.#handle);
  }

  /** Makes a call with the numbers of a record of a kind: what it gives. */
  #make(call, kind, record) {
    const numbers = taken(record, kind);
    return this.#instance.make(call, this.#at, numbers);
  }

  /** Judges a reading: its row. */
  cycle(reading) {
    return rowOf(this.#make("sdm_cycle", "read", reading));
  }

  /** What the driver can be shown of a reading that was judged. */
  display(reading) {
    return this.#make("sdm_display", "read", reading);
  }

  /** Why a reading that was judged triggers, and how each command stands after it. */
  causes(reading) {
    return causesOf(this.#make("sdm_causes", "read", reading));
  }

  /** Whether a reading would be covered, if it came next. */
  wouldCover(reading) {
    return this.#make("sdm_would_cover", "read", reading) === 1;
  }

  /** Whether each reading up to the asked one, which asks no more, would be covered or in release speed monitoring. */
  wouldCoverUpTo(asked) {
    return this.#make("sdm_would_cover_up_to", "read", asked) === 1;
  }

  /** Takes an authority to an end. */
  end(authority) {
    this.#make("sdm_end", "end", authority);
  }

  /** Takes one with a calculated release speed. */
  endCalculated(authority) {
    this.#make("sdm_end_calculated", "endcalc", authority);
  }

  /** Takes an authority to a limit. */
  limit(authority) {
    this.#make("sdm_limit", "limit", authority);
  }

  /** Puts a restriction into force. */
  restrict(restriction) {
    this.#make("sdm_restrict", "restrict", restriction);
  }

  /** Lifts a restriction. */
  revoke(revocation) {
    this.#make("sdm_revoke", "revoke", revocation);
  }

  /** Takes over restrictions, time and commands from the supervisor that ran before. */
  takeOver(before) {
    if (!(before instanceof Supervisor) || before === this || before.#instance !== this.#instance) {
      throw new TypeError("a supervisor takes over from another one of the same library");
    }
    const at = this.#at, from = before.#at;
    this.#instance.check(this.#instance.run("sdm_take_over", at, from));
  }

  /** Takes any record, which says what it is by its `kind`, as the first column does: the row of a reading, else null. */
  take(record) {
    const does = TAKEN[record?.kind];
    if (does === undefined) throw new TypeError("that is no record: it has no kind");
    return does(this, record) ?? null;
  }

  /** Gives the memory back; of one that is closed nothing happens. */
  close() {
    if (this.#handle === null) return;
    const handle = this.#handle;
    this.#handle = null;
    this.#leftovers.unregister(this);
    if (!this.#instance.isDropped) release(this.#instance, handle);
  }

  [Symbol.dispose ?? Symbol("dispose")]() {
    this.close();
  }
}

const KEY = Symbol("made by Library.open");
const TAKEN = {
  __proto__: null,
  read: (supervisor, record) => supervisor.cycle(record),
  end: (supervisor, record) => supervisor.end(record),
  endcalc: (supervisor, record) => supervisor.endCalculated(record),
  limit: (supervisor, record) => supervisor.limit(record),
  restrict: (supervisor, record) => supervisor.restrict(record),
  revoke: (supervisor, record) => supervisor.revoke(record),
};

/** Closes the supervisor of a handle, and gives the handle back. */
function release(instance, handle) {
  instance.run("sdm_close", BigInt(handle));
  instance.free(handle);
}

/** The library over one instance of the module. */
export class Library {
  #instance;
  #leftovers;

  constructor(module) {
    if (!(module instanceof WebAssembly.Module)) throw new TypeError("a library is made of a WebAssembly.Module");
    const instance = (this.#instance = new Instance(module));
    // Closes those that were forgotten, some time after nothing leads to them any more.
    this.#leftovers = new FinalizationRegistry((handle) => {
      if (!instance.isDropped) release(instance, handle);
    });
  }

  /** Whether the module trapped, so that no further call of it is made: make another library. */
  get isDropped() {
    return this.#instance.isDropped;
  }

  /** The bytes of memory that the module has taken so far. */
  get bytes() {
    return this.#instance.bytes;
  }

  /** Opens a supervisor over a data part in TOML (docs/FORMATS.md). */
  open(data) {
    const instance = this.#instance, given = bytesOf(data), handle = instance.take(HANDLE_BYTES);
    let status = Status.NO_MEMORY, line = "";
    try {
      ({ status, line } = opened(instance, handle, given));
    } finally {
      if (status !== Status.DONE && !instance.isDropped) instance.free(handle);
    }
    if (status !== Status.DONE) throw new SdmError(status, line);
    return new Supervisor(KEY, instance, handle, this.#leftovers);
  }
}

/** Opens the supervisor of a handle: the status, and of data that are refused the line. */
function opened(instance, handle, data) {
  const at = instance.take(Math.max(data.length, 1)), to = instance.place("sdm_open", 3);
  new Uint8Array(instance.view.buffer, at, data.length).set(data);
  const status = instance.run("sdm_open", BigInt(handle), BigInt(at), BigInt(data.length), BigInt(to));
  instance.free(at);
  if (status !== Status.BAD_DATA && status !== Status.REFUSED) return { status, line: "" };
  const { count, bytes } = read.sdm_line(instance.view, to);
  return { status, line: new TextDecoder().decode(bytes.subarray(0, count)).replace(/\n$/, "") };
}

/** The module's bytes, of the file beside this one or from elsewhere. */
async function bytesFrom(from) {
  if (from instanceof URL && from.protocol === "file:" && typeof process === "object") {
    return (await import("node:fs/promises")).readFile(from);
  }
  return from instanceof URL ? (await fetch(from)).arrayBuffer() : from;
}

/** The library over sdm.wasm beside this file, or over a module of an URL, of bytes, or compiled before. */
export async function load(from = new URL("./sdm.wasm", import.meta.url)) {
  return new Library(from instanceof WebAssembly.Module ? from : await WebAssembly.compile(await bytesFrom(from)));
}

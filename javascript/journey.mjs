// Journeys as text: the records of docs/FORMATS.md, the lines that the program writes for what a supervisor answers, and
// whole inputs of `run`, `display`, `why` and `live`, played as the program plays them.

import { FORMS, RULES, STANDINGS, STATES, STATUS_TEXTS, SUPERVISIONS, Status, TARGETS, Target, Rule } from "./structs.mjs";
import { SdmError } from "./sdm.mjs";

const MOST_BYTES = 16777216;
const MOST_RECORDS = 100000;
const MOST_LINE_BYTES = 1024;
const BYTE_ORDER_MARK = "\xef\xbb\xbf";
const LF = 10, CR = 13, PERCENT = 37;
// A field: what stands in quotes, where it begins with one, and then what goes on to the comma or the end of the line.
const FIELD = /(?:"([^"]*(?:""[^"]*)*)(?:"|$))?([^,\r\n]*)/y;
const NUMBER = /^-?[0-9]{1,18}$/;
/** The exit statuses of the program. */
export const Code = Object.freeze({ DONE: 0, TOO_LONG: 4, BAD_DATA: 5, REFUSED: 6, BAD_EVENT: 7, NO_MEMORY: 8 });

/** Bytes as text in which a character is a byte, and back. */
const charactersOf = (bytes) => Array.from(bytes, (byte) => String.fromCharCode(byte)).join("");

/** The records of a text in which a character is a byte: each as its fields. */
export function* fieldsOf(text) {
  let at = text.startsWith(BYTE_ORDER_MARK) ? BYTE_ORDER_MARK.length : 0;
  while (at < text.length) {
    const fields = [];
    for (let more = text[at] !== "\r" && text[at] !== "\n"; more; ) {
      FIELD.lastIndex = at;
      const [whole, quoted = "", rest] = FIELD.exec(text);
      fields.push(quoted.replaceAll('""', '"') + rest);
      at += whole.length;
      more = text[at] === ",";
      at += 1;
    }
    if (fields.length > 0) yield fields;
    else at += 1;
  }
}

/** The record that fields write, or a `fault` of their form. */
export function recordOf([kind, ...written]) {
  if (!Object.hasOwn(FORMS, kind)) return { fault: "unknown kind" };
  const { fields } = FORMS[kind], record = { kind };
  if (written.length !== fields.length) return { fault: "field count" };
  for (const [index, { name, least, most }] of fields.entries()) {
    const number = Number(written[index]);
    if (!NUMBER.test(written[index])) return { fault: `field ${index + 2}: not a number` };
    if (number < (record[least] ?? least) || number > (record[most] ?? most)) {
      return { fault: `field ${index + 2}: out of range` };
    }
    record[name] = number;
  }
  return record;
}

/** The line of a row. */
export function rowText(row) {
  const flags = [row.tco, row.sb, row.eb, row.covered].map(Number);
  const places = [row.ebi_mm, row.sbi_mm, row.warning_mm, row.permitted_mm, row.indication_mm].map((mm) => mm ?? "-");
  return `${[row.time_ds, STATES[row.state], SUPERVISIONS[row.status], ...flags, row.ceiling_kmh, ...places].join(",")}\n`;
}

/** The line of what a driver can be shown. */
export function displayText(display) {
  const { time_ds, permitted_kmh, sbi_kmh, ebi_kmh, release_kmh, target, distance_mm } = display;
  const distance = target === Target.NONE ? "-" : distance_mm;
  return `${[time_ds, permitted_kmh, sbi_kmh, ebi_kmh, release_kmh, TARGETS[target], distance].join(",")}\n`;
}

function causeText(cause) {
  if (cause === null || cause.rule !== Rule.TARGET) return RULES[cause?.rule ?? Rule.NONE];
  return `target ${TARGETS[cause.target]} ${cause.target_mm} ${cause.target_kmh} ${cause.limit_mm}`;
}

/** The line of causes. */
export function causesText(causes) {
  const triggers = [causes.over, causes.warn, causes.serv, causes.emer].map(causeText);
  return `${[causes.time_ds, ...triggers, ...[causes.tco, causes.sb, causes.eb].map((each) => STANDINGS[each])].join(",")}\n`;
}

// What is written of a reading once its row is there.
const ANSWERS = {
  run: (supervisor, record, row) => rowText(row),
  display: (supervisor, record) => displayText(supervisor.display(record)),
  why: (supervisor, record) => causesText(supervisor.causes(record)),
};

/** Where the first line begins that is %% alone, ended by LF, CRLF or the end, and where the records begin; null where
 * there is none. */
export function dividingLine(bytes) {
  for (let at = 0; at < bytes.length; ) {
    const feed = bytes.indexOf(LF, at), stop = feed < 0 ? bytes.length : feed;
    const count = stop - at - (feed >= 0 && stop - at === 3 && bytes[stop - 1] === CR ? 1 : 0);
    const next = feed < 0 ? bytes.length : feed + 1;
    if (count === 2 && bytes[at] === PERCENT && bytes[at + 1] === PERCENT) return { data: at, records: next };
    at = next;
  }
  return null;
}

/** How the program ends where an opening is refused. */
function endOf(why, out) {
  if (!(why instanceof SdmError)) throw why;
  const code = { [Status.NO_MEMORY]: Code.NO_MEMORY, [Status.BAD_DATA]: Code.BAD_DATA, [Status.REFUSED]: Code.REFUSED };
  if (code[why.status] === undefined) throw why;
  return { out, err: why.status === Status.NO_MEMORY ? "sdm: no memory\n" : `${why.line}\n`, code: code[why.status] };
}

/** The text of a refusal of a record. */
function refusal(why) {
  if (why instanceof SdmError && why.status > Status.OUT_OF_RANGE) return STATUS_TEXTS[why.status];
  throw why;
}

/** What the program writes for an input of `run`, `display` or `why`: standard output, standard error, exit status. */
export function play(library, word, input) {
  if (input.length > MOST_BYTES) return { out: "", err: "sdm: input too long\n", code: Code.TOO_LONG };
  const divided = dividingLine(input);
  if (divided === null) return { out: "", err: "sdm: bad data: no %% line\n", code: Code.BAD_DATA };
  let supervisor;
  try {
    supervisor = library.open(input.subarray(0, divided.data));
  } catch (why) {
    return endOf(why, "");
  }
  try {
    return played(supervisor, ANSWERS[word], fieldsOf(charactersOf(input.subarray(divided.records))));
  } finally {
    supervisor.close();
  }
}

function played(supervisor, answer, records) {
  const lines = [];
  let count = 0;
  const bad = (text) => ({ out: lines.join(""), err: `sdm: bad event ${count}: ${text}\n`, code: Code.BAD_EVENT });
  for (const fields of records) {
    count += 1;
    if (count > MOST_RECORDS) return bad("too many events");
    const record = recordOf(fields);
    if (record.fault) return bad(record.fault);
    try {
      const row = supervisor.take(record);
      if (row !== null) lines.push(answer(supervisor, record, row));
    } catch (why) {
      return bad(refusal(why));
    }
  }
  return { out: lines.join(""), err: "", code: Code.DONE };
}

/** What `live` answers to a line of the records, without its end. */
export function answerTo(supervisor, line) {
  const [fields] = fieldsOf(line);
  const record = recordOf(fields ?? [""]);
  if (record.fault) return `refused: ${record.fault}\n`;
  try {
    const row = supervisor.take(record);
    return row === null ? "taken\n" : rowText(row);
  } catch (why) {
    return `refused: ${refusal(why)}\n`;
  }
}

/** Lines out of pieces of bytes: each as text, and `null` where a line is too long, at its first byte too many. */
class Lines {
  #begun = "";
  #isPassedOver = false;

  *of(piece) {
    for (const byte of piece) {
      if (byte === LF || byte === CR) yield* this.end();
      else if (!this.#isPassedOver) {
        this.#begun += String.fromCharCode(byte);
        if (this.#begun.length > MOST_LINE_BYTES) {
          this.#begun = "";
          this.#isPassedOver = true;
          yield null;
        }
      }
    }
  }

  *end() {
    if (this.#begun !== "") yield this.#begun;
    this.#begun = "";
    this.#isPassedOver = false;
  }
}

function joined(one, other) {
  const whole = new Uint8Array(one.length + other.length);
  whole.set(one);
  whole.set(other, one.length);
  return whole;
}

/** Reads up to the dividing line: the data part, and the bytes behind the line. Where it may go on, more is asked for. */
async function dataOf(pieces) {
  let held = new Uint8Array();
  for (let next = await pieces.next(); ; next = await pieces.next()) {
    if (!next.done) held = joined(held, next.value);
    if (held.length > MOST_BYTES) return { code: Code.TOO_LONG, err: "sdm: input too long\n" };
    const divided = dividingLine(held);
    const isWhole = divided !== null && (next.done || held[divided.records - 1] === LF);
    if (isWhole) return { data: held.subarray(0, divided.data), rest: held.subarray(divided.records) };
    if (next.done) return { code: Code.BAD_DATA, err: "sdm: bad data: no %% line\n" };
  }
}

/** Plays an input of `live` that comes in pieces; each text of answers is passed on before the next piece is asked for. */
export async function live(library, input, pass) {
  const pieces = input[Symbol.asyncIterator]();
  const { data, rest, ...ended } = await dataOf(pieces);
  if (data === undefined) return ended;
  let supervisor;
  try {
    supervisor = library.open(data);
  } catch (why) {
    return endOf(why);
  }
  try {
    const lines = new Lines();
    const answered = (found) =>
      [...found].map((line) => (line === null ? "refused: line too long\n" : answerTo(supervisor, line))).join("");
    for (let piece = rest; piece !== undefined; piece = (await pieces.next()).value) await pass(answered(lines.of(piece)));
    await pass(answered(lines.end()));
    return { code: Code.DONE, err: "" };
  } finally {
    supervisor.close();
  }
}

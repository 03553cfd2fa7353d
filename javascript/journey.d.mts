// The types of journey.mjs: journeys as text.

import type { Causes, Display, Library, Record, Row, Supervisor } from "./sdm.mjs";

/** The exit statuses of the program. */
export declare const Code: Readonly<{
  DONE: 0; TOO_LONG: 4; BAD_DATA: 5; REFUSED: 6; BAD_EVENT: 7; NO_MEMORY: 8;
}>;

/** What the program writes, and its exit status. */
export interface Ended {
  out: string;
  err: string;
  code: number;
}

/** The records of a text in which a character is a byte: each as its fields. */
export declare function fieldsOf(text: string): Generator<string[]>;
/** The record that fields write, or a fault of their form. */
export declare function recordOf(fields: string[]): Record | { fault: string };
/** The line of a row, of what a driver is shown, of causes. */
export declare function rowText(row: Row): string;
export declare function displayText(display: Display): string;
export declare function causesText(causes: Causes): string;
/** Where the dividing line begins, and where the records do. */
export declare function dividingLine(bytes: Uint8Array): { data: number; records: number } | null;
/** What the program writes for an input. */
export declare function play(library: Library, word: "run" | "display" | "why", input: Uint8Array): Ended;
/** What `live` answers to a line of the records, without its end. */
export declare function answerTo(supervisor: Supervisor, line: string): string;
/** Plays an input of `live` that comes in pieces. */
export declare function live(
  library: Library,
  input: AsyncIterable<Uint8Array>,
  pass: (text: string) => unknown,
): Promise<{ code: number; err: string }>;

// What the tests take: the library, and the journeys of the package's examples.

import { readFile, readdir } from "node:fs/promises";
import { load } from "../sdm.mjs";
import { fieldsOf, recordOf } from "../journey.mjs";

const EXAMPLES = new URL("../examples/", import.meta.url);
/** The modules: that of 32 bits, and that of 64 bits where this node takes it. */
export const MODULES = ["sdm.wasm", "sdm-64.wasm"];

/** The library over a module; null where this engine doesn't take its memory. */
export async function libraryOf(name) {
  try {
    return await load(new URL(`../${name}`, import.meta.url));
  } catch (why) {
    if (name === "sdm-64.wasm" && why instanceof WebAssembly.CompileError) return null;
    throw why;
  }
}

export const library = () => libraryOf("sdm.wasm");

/** A file of an example, as text. */
export const fileOf = (example, name) => readFile(new URL(`${example}/${name}`, EXAMPLES), "utf8");

/** The same, or a text where there is none. */
export const fileOr = (example, name, absent) => fileOf(example, name).catch(() => absent);

export const examples = async () => (await readdir(EXAMPLES)).sort();

/** The data part of an example and its records. */
export async function journeyOf(example) {
  const [data, records] = (await fileOf(example, "input")).split("%%\n");
  return { data, records: [...fieldsOf(records)].map(recordOf) };
}

/** Numbers that a seed gives, from 0 to below a bound. */
export function drawer(seed) {
  let state = BigInt(seed);
  return (bound) => {
    state = (state * 6364136223846793005n + 1442695040888963407n) & 0xffffffffffffffffn;
    return Number((state >> 33n) % BigInt(bound));
  };
}

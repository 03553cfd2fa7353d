#!/usr/bin/env node
// Plays an input on the module, and writes what the program writes:
//
//     node replay.mjs run|display|why|live [MODULE.wasm] < INPUT
//     node replay.mjs --folders [MODULE.wasm] FOLDER..     all journeys below folders, each with what it leads to beside
//                                                          it; tells how many differ

import { readFile, readdir } from "node:fs/promises";
import path from "node:path";
import { pathToFileURL } from "node:url";
import { live, play } from "./journey.mjs";
import { load } from "./sdm.mjs";

const WORDS = ["run", "display", "why"];

const textOf = async (file, absent) => {
  try {
    return await readFile(file, "utf8");
  } catch {
    return absent;
  }
};

async function* foldersBelow(folder) {
  const entries = await readdir(folder, { withFileTypes: true });
  if (entries.some((each) => each.name === "input")) yield folder;
  for (const each of entries.filter((entry) => entry.isDirectory()).sort()) yield* foldersBelow(path.join(folder, each.name));
}

/** How a journey's folder compares: null where its command isn't one of these. */
async function compared(library, folder) {
  const word = (await textOf(path.join(folder, "args"), "run\n")).trimEnd();
  if (!WORDS.includes(word)) return null;
  const due = await Promise.all(["rows", "err"].map((name) => textOf(path.join(folder, name), "")));
  const code = Number(await textOf(path.join(folder, "code"), "0"));
  const found = play(library, word, new Uint8Array(await readFile(path.join(folder, "input"))));
  if (found.out === due[0] && found.err === due[1] && found.code === code) return "same";
  console.log(`${folder}: code ${found.code}, due ${code}; ${found.err}`);
  return "other";
}

async function playFolders(library, folders) {
  const counts = { same: 0, other: 0 };
  for (const top of folders) {
    for await (const folder of foldersBelow(top)) {
      const found = await compared(library, folder);
      if (found !== null) counts[found] += 1;
    }
  }
  console.log(`${counts.same} the same, ${counts.other} differ`);
  return counts.other > 0 || counts.same === 0 ? 1 : 0;
}

const written = (text) => new Promise((done) => process.stdout.write(text, done));

async function playInput(library, word) {
  if (word === "live") {
    const ended = await live(library, process.stdin, written);
    process.stderr.write(ended.err);
    return ended.code;
  }
  const pieces = [];
  for await (const piece of process.stdin) pieces.push(piece);
  const { out, err, code } = play(library, word, new Uint8Array(Buffer.concat(pieces)));
  await written(out);
  process.stderr.write(err);
  return code;
}

const [word, ...more] = process.argv.slice(2);
const module = more[0]?.endsWith(".wasm") ? pathToFileURL(more.shift()) : undefined;
if (word === "--folders") process.exitCode = await playFolders(await load(module), more);
else if ([...WORDS, "live"].includes(word)) process.exitCode = await playInput(await load(module), word);
else {
  console.error("usage: replay.mjs run|display|why|live [MODULE.wasm] < INPUT, or --folders [MODULE.wasm] FOLDER..");
  process.exitCode = 64;
}

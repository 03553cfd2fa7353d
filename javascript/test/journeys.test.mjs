// Whole journeys: rows, fault line and exit status of the package's examples, by both modules, and `live` in pieces.

import assert from "node:assert/strict";
import test from "node:test";
import { live, play } from "../journey.mjs";
import { MODULES, examples, fileOf, fileOr, library, libraryOf } from "./inputs.mjs";

for (const module of MODULES) {
  test(`${module} writes what the program writes`, async (context) => {
    const sdm = await libraryOf(module);
    if (sdm === null) return context.skip("this engine takes no memory of 64 bits without a flag");
    let played = 0;
    for (const example of await examples()) {
      const word = (await fileOr(example, "args", "run\n")).trim();
      if (word === "live") continue;
      const due = {
        out: await fileOr(example, "rows", ""),
        err: await fileOr(example, "err", ""),
        code: Number(await fileOr(example, "code", "0")),
      };
      assert.deepEqual(play(sdm, word, new TextEncoder().encode(await fileOf(example, "input"))), due, example);
      played += 1;
    }
    assert.ok(played >= 5);
  });
}

/** The bytes of an input in pieces of so many. */
async function* pieces(bytes, size) {
  for (let at = 0; at < bytes.length; at += size) yield bytes.subarray(at, at + size);
}

for (const size of [1, 7, 1000, 1e6]) {
  test(`live answers the same in pieces of ${size} bytes`, async () => {
    const sdm = await library(), bytes = new TextEncoder().encode(await fileOf("live", "input"));
    let told = "";
    const ended = await live(sdm, pieces(bytes, size), (text) => (told += text));
    assert.equal(told, await fileOf("live", "rows"));
    assert.deepEqual(ended, { code: 0, err: "" });
  });
}

test("live answers each record before it asks for the next piece", async () => {
  const sdm = await library(), input = await fileOf("live", "input"), cut = input.indexOf("%%\n") + 3;
  const lines = input.slice(cut).split(/(?<=\n)/), encoder = new TextEncoder();
  const due = (await fileOf("live", "rows")).split(/(?<=\n)/);
  let told = "", asked = 0;
  async function* client() {
    yield encoder.encode(input.slice(0, cut));
    for (const line of lines) {
      assert.equal(told, due.slice(0, asked).join(""));
      asked += line === "\n" ? 0 : 1;
      yield encoder.encode(line);
    }
  }
  await live(sdm, client(), (text) => (told += text));
  assert.equal(told, due.join(""));
});

test("an input without a dividing line, and one that is too long, end as the program does", async () => {
  const sdm = await library();
  assert.deepEqual(play(sdm, "run", new TextEncoder().encode("version = 1\n")), { out: "", err: "sdm: bad data: no %% line\n", code: 5 });
  assert.deepEqual(play(sdm, "run", new Uint8Array(16777217)), { out: "", err: "sdm: input too long\n", code: 4 });
});

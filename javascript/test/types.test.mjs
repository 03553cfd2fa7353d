// sdm.d.mts says what there is: the members of each enum with their numbers, and the calls of a supervisor.

import assert from "node:assert/strict";
import { readFile } from "node:fs/promises";
import test from "node:test";
import * as sdm from "../sdm.mjs";

const declared = await readFile(new URL("../sdm.d.mts", import.meta.url), "utf8");

for (const name of ["Status", "State", "Supervision", "Target", "Rule", "Standing"]) {
  test(`the types have the numbers of ${name}`, () => {
    const [, body] = declared.match(new RegExp(`declare const ${name}: Readonly<\\{([^}]*)\\}>;`));
    const told = Object.fromEntries([...body.matchAll(/(\w+): (\d+)/g)].map(([, member, number]) => [member, Number(number)]));
    assert.deepEqual(told, { ...sdm[name] });
  });
}

test("the types have the calls of a supervisor and of a library", () => {
  for (const kind of [sdm.Supervisor, sdm.Library]) {
    const [, body] = declared.match(new RegExp(`class ${kind.name} \\{(.*?)^\\}`, "ms"));
    const told = [...body.matchAll(/^ {2}(?:private |readonly )?(\w+)[(:]/gm)].map(([, name]) => name);
    assert.deepEqual(told.sort(), Object.getOwnPropertyNames(kind.prototype).sort());
  }
});

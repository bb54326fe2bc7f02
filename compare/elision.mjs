// Asks TypeScript what it leaves of the imports and exports of the modules in the table of crates/lowering_examples/src/eliding.rt.
//   node --expose-internals compare/elision.mjs
// What is compared are trees, printed by TypeScript: of what it writes for a module, without the `export {}` that it adds, and of what is wanted there.
import { readFileSync } from "node:fs";
import { ts } from "./typescript_expressions.mjs";

const path = new URL("../crates/lowering_examples/src/eliding.rt", import.meta.url);
const source = readFileSync(path, "utf8");
const table = source.slice(source.indexOf("const ROWS"), source.indexOf("#[test]"));
const row = /\(\s*("(?:[^"\\]|\\.)*"),\s*("(?:[^"\\]|\\.)*"),?\s*\)/g;
const options = { target: ts.ScriptTarget.ESNext, module: ts.ModuleKind.ESNext };

/** TypeScript keeps no import that is written `import {} from`, which stays here. */
const withoutBare = (text) => text.replace(/^import "n";\n/m, "");

const printed = (text) => {
  const file = ts.createSourceFile("m.js", text, ts.ScriptTarget.ESNext, true, ts.ScriptKind.JS);
  return ts.createPrinter({ removeComments: true }).printFile(file).replace(/\s+/g, " ").trim();
};

let texts = 0;
let different = 0;
for (const [, text, wanted] of table.matchAll(row)) {
  texts += 1;
  const module = JSON.parse(text);
  const theirs = printed(ts.transpileModule(module, { compilerOptions: options }).outputText.replace("export {};\n", ""));
  const bare = module.includes("import {} from");
  const ours = printed(bare ? withoutBare(JSON.parse(wanted)) : JSON.parse(wanted));
  if (ours === theirs) continue;
  different += 1;
  console.log(`different: ${text}\n  wanted:     ${ours}\n  TypeScript: ${theirs}`);
}
console.log(`${texts} texts, ${different} different`);
process.exitCode = different ? 1 : 0;

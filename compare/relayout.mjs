// Compares real plain modules with their layouts by crates/relayout: acorn reads both, and the trees are to be the same, but for places,
// source texts and parentheses. A layout that is laid out once more is to stay, too.
//   node --expose-internals compare/relayout.mjs [--most=BYTES] [--modules] [--texts] FOLDER..
// Files are those that end in .js and .mjs, with --most up to that size, and with --modules such as have a line that begins with `import` or
// `export`. One that acorn does not read as a module is passed over, but counted where the program reads it. With --texts the plain texts of
// compare/tree_texts.mjs are compared too, and each of a list of expressions in each of a list of places.
import { spawnSync } from "node:child_process";
import { readFileSync } from "node:fs";
import { fileURLToPath } from "node:url";
import { parseModule } from "./acorn_trees.mjs";
import { firstDifference } from "./notation.mjs";
import { expressions, places } from "./placed_expressions.mjs";
import { counting, filesIn, plain } from "./real_trees.mjs";
import { acornAlone, plain as plainTexts } from "./tree_texts.mjs";

const program = process.env.RELAYOUT ?? fileURLToPath(new URL("../crates/relayout/out/relayout", import.meta.url));
const words = process.argv.slice(2);
const most = Number(words.find((word) => word.startsWith("--most="))?.slice("--most=".length) ?? Infinity);
const modules = words.includes("--modules");
const isModule = (text) => /^\s*(import|export)\b/m.test(text);
const shown = 25;

/** The layout of a module, or the line of its refusal. */
function relaid(bytes) {
  const run = spawnSync(program, { input: bytes, maxBuffer: 2 ** 30 });
  if (run.status === 0) return { text: run.stdout };
  if (run.status === 1) return { refusal: run.stderr.toString().trim() };
  return { refusal: `ended with ${run.status ?? run.signal}` };
}

/** acorn's tree of a text in one line, if it reads a module. */
function treeOf(text) {
  try {
    return JSON.stringify(plain(parseModule(text, true)));
  } catch (error) {
    if (error instanceof SyntaxError) return null;
    throw error;
  }
}

const { counts, examples, count } = counting(shown);

/** A refusal by its name, with what stands at its place. */
function tally(bytes, refusal) {
  const [, name, at] = /^error: (\w+)(?: at (\d+))?$/.exec(refusal) ?? [null, refusal];
  const around = at === undefined ? "" : ` ${JSON.stringify(bytes.subarray(Math.max(0, at - 40), Number(at) + 20).toString())}`;
  return [`refused, ${name}`, around];
}

function judge(file, bytes) {
  const text = bytes.toString().replace(/^\ufeff/, "");
  const theirs = treeOf(text);
  const answer = relaid(bytes);
  if (answer.refusal !== undefined) {
    const [what, around] = theirs === null ? ["refused by both"] : tally(bytes, answer.refusal);
    count(what, theirs === null ? undefined : `${file}: ${answer.refusal}${around}`);
    return;
  }
  const written = treeOf(answer.text.toString());
  const again = relaid(answer.text);
  if (!again.text?.equals(answer.text)) count("not the same when laid out again", `${file}: ${again.refusal ?? ""}`);
  if (theirs === null) {
    count("read by the program alone", file);
  } else if (written === theirs) {
    count("equal");
    counts["bytes of the equal"] = (counts["bytes of the equal"] ?? 0) + bytes.length;
  } else {
    const difference = firstDifference(written ?? "not read by acorn", theirs);
    count("different", `${file}\n    written: ${difference.ours}\n    source:  ${difference.theirs}`);
  }
}

/** Judges texts: all at once, each in a block, and where that is not equal one by one. */
function judgeAll(texts, alone) {
  const blocks = texts.map((text) => `{ ${text}\n}`);
  const answer = alone ? {} : relaid(Buffer.from(blocks.join("\n")));
  const isEqual = answer.text && treeOf(answer.text.toString()) === treeOf(blocks.join("\n")) && relaid(answer.text).text?.equals(answer.text);
  if (isEqual) counts["equal, of the texts that were made"] = (counts["equal, of the texts that were made"] ?? 0) + texts.length;
  else for (const text of texts) judge(JSON.stringify(text), Buffer.from(text));
}

if (words.includes("--texts")) {
  for (const text of [...Object.values(plainTexts).flat(), ...acornAlone]) judge(JSON.stringify(text), Buffer.from(text));
  for (const place of places) {
    const texts = expressions.map((e) => place.replaceAll("#", () => e)).filter((text) => treeOf(text) !== null);
    judgeAll(texts, place.startsWith("export"));
  }
}
const seen = new Set();
for (const folder of words.filter((word) => !word.startsWith("--"))) {
  for (const file of filesIn(folder, /\.m?js$/)) {
    const bytes = readFileSync(file);
    const key = bytes.toString("latin1");
    if (bytes.length > most || (modules && !isModule(key)) || seen.has(key)) continue;
    seen.add(key);
    judge(file, bytes);
  }
}
for (const [what, times] of Object.entries(counts)) console.log(`${what}: ${times}`);
for (const [what, list] of examples) for (const example of list) console.log(`${what}: ${example}`);

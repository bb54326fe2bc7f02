// Compares the trees of real files: the program's with acorn's for .js and .mjs, and with TypeScript's for .ts and .mts.
//   node --expose-internals compare/real_files.mjs [--typescript] [--finished] [--levels=N] FOLDER..
// With --typescript all files are read as TypeScript, and with --finished the program is one that finishes its trees. A file that
// the other parser refuses is passed over, but counted where the program reads it all the same.
import { lstatSync, readdirSync, readFileSync } from "node:fs";
import { join } from "node:path";
import { acornTree } from "./acorn_trees.mjs";
import { firstDifference } from "./notation.mjs";
import { answers, isRefusal, separator } from "./program.mjs";
import { typescriptTree } from "./typescript_trees.mjs";

const batch = 4_000_000;
const longest = 4_194_304;
const shown = 25;

function* filesIn(path) {
  const stat = lstatSync(path);
  if (stat.isFile() && /\.m?[jt]s$/.test(path)) yield path;
  if (stat.isDirectory()) for (const name of readdirSync(path).sort()) yield* filesIn(join(path, name));
}

const words = process.argv.slice(2);
const all = words.includes("--typescript");
const finished = words.includes("--finished");
const levels = words.find((word) => word.startsWith("--levels="))?.slice("--levels=".length) ?? 4000;
const isTypeScript = (file) => all || file.endsWith("ts");

const counts = {};
const tally = new Map();
const examples = new Map();

function count(file, what, example) {
  const sort = file.endsWith("ts") ? "TypeScript files" : "plain files";
  counts[sort] ??= {};
  counts[sort][what] = (counts[sort][what] ?? 0) + 1;
  if (!examples.has(what)) examples.set(what, []);
  if (example && examples.get(what).length < shown) examples.get(what).push(example);
}

/** The other parser's tree of a text, if it has one. */
function theirs(file, text) {
  try {
    return isTypeScript(file) ? typescriptTree(text, { finished, name: file }) : acornTree(text, { finished });
  } catch (error) {
    if (error instanceof SyntaxError) return null;
    throw new Error(`${file}: ${error.message}`, { cause: error });
  }
}

function refused(file, text, answer) {
  const at = Number(/\d+$/.exec(answer)[0]);
  const bytes = Buffer.from(text);
  count(file, "refused", `${file}: ${answer}: ${JSON.stringify(bytes.subarray(Math.max(0, at - 40), at + 30).toString())}`);
  const key = answer.startsWith("TooDeep") ? "TooDeep" : `before ${JSON.stringify(bytes.subarray(at, at + 6).toString())}`;
  tally.set(key, (tally.get(key) ?? 0) + 1);
}

function judge({ file, text, tree }, answer) {
  if (tree === null) {
    if (isRefusal(answer)) count(file, "refused by both");
    else count(file, "read by the program alone", file);
  } else if (answer === tree) {
    count(file, "equal");
    counts.bytes = (counts.bytes ?? 0) + text.length;
  } else if (isRefusal(answer)) {
    refused(file, text, answer);
  } else {
    const difference = firstDifference(answer, tree);
    count(file, "different", `${file}\n    ours:   ${difference.ours}\n    theirs: ${difference.theirs}`);
  }
}

let cases = [];
let bytes = 0;
function flush() {
  if (cases.length === 0) return;
  const found = answers(cases);
  cases.forEach((c, index) => judge(c, found[index]));
  cases = [];
  bytes = 0;
}

const seen = new Set();
for (const folder of words.filter((word) => !word.startsWith("--"))) {
  for (const file of filesIn(folder)) {
    const text = readFileSync(file, "utf8").replace(/^\ufeff/, "");
    if (text.length > longest || text.includes(separator) || text.includes("\ufffd") || seen.has(text)) continue;
    seen.add(text);
    cases.push({ file, text, mode: isTypeScript(file) ? "typescript" : "plain", levels, tree: theirs(file, text) });
    bytes += text.length;
    if (bytes > batch) flush();
  }
}
flush();

console.log(JSON.stringify(counts));
for (const [key, times] of [...tally].sort(([, one], [, other]) => other - one)) console.log(`  refused ${key}: ${times}`);
for (const [what, list] of examples) for (const example of list) console.log(`${what}: ${example}`);

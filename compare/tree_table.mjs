// Writes the table of trees, crates/tree_notation/stdin and stdout: texts, and the tree that acorn and TypeScript give each.
//   node --expose-internals compare/tree_table.mjs
// A plain text stands only where both parsers give it one tree; a text that is refused has its place worked out by hand. With the
// word `check` nothing is written, and differences of the program's answers are shown.
import { writeFileSync } from "node:fs";
import { acornTree } from "./acorn_trees.mjs";
import { firstDifference } from "./notation.mjs";
import { answers, separator } from "./program.mjs";
import { acornAlone, newer, plain, refused, typescript } from "./tree_texts.mjs";
import { typescriptTree } from "./typescript_trees.mjs";

const folder = new URL("../crates/tree_notation/", import.meta.url);
const levels = 40;

const attempt = (parse, text, options) => {
  try {
    return parse(text, options);
  } catch (error) {
    return String(error);
  }
};

/** The tree that the two parsers give, if it is one; what they differ in is told. */
function agreed(topic, text, finished) {
  const [one, other] = [attempt(acornTree, text, { finished }), attempt(typescriptTree, text, { finished })];
  if (one === other) return one;
  const { ours, theirs } = firstDifference(one, other);
  console.log(`the parsers differ in ${topic}: ${JSON.stringify(text)}\n  acorn:      ${ours}\n  TypeScript: ${theirs}`);
  return null;
}

const cases = [];
const add = (mode, bound, text, answer) => cases.push({ mode, levels: bound, text, answer });
for (const [topic, texts] of Object.entries(plain)) {
  for (const text of texts) {
    const [tree, finished] = [agreed(topic, text, false), agreed(topic, text, true)];
    if (!tree || !finished) continue;
    add("plain", levels, text, tree);
    add("typescript", levels, text, tree);
  }
}
for (const text of acornAlone) add("plain", levels, text, attempt(acornTree, text));
for (const text of Object.values(typescript).flat()) add("typescript", levels, text, attempt(typescriptTree, text));
for (const { text, older, change } of newer) add("typescript", levels, text, attempt(typescriptTree, older).replace(...change));
for (const [mode, bound, text, answer] of refused) add(mode, bound, text, answer);

for (const { text, answer } of cases) {
  if (answer.startsWith("SyntaxError")) console.log(`refused outside: ${JSON.stringify(text)}: ${answer}`);
}

if (process.argv.includes("check")) {
  const found = await answers(cases);
  cases.forEach(({ mode, text, answer }, index) => {
    if (found[index] === answer) return;
    const { ours, theirs } = firstDifference(found[index], answer);
    console.log(`${mode} ${JSON.stringify(text)}\n  ours:   ${ours}\n  theirs: ${theirs}`);
  });
} else {
  writeFileSync(new URL("stdin", folder), cases.map((c) => `${c.mode} ${c.levels}\n${c.text}`).join(separator));
  writeFileSync(new URL("stdout", folder), cases.map((c) => `${c.answer}\n`).join(""));
}
console.log(`${cases.length} texts`);

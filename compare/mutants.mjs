// Changes the texts of the table by a token at a time, and compares what the program says of each with acorn and with TypeScript.
//   node --expose-internals compare/mutants.mjs [--typescript] [NUMBER]
// NUMBER is how many tokens are put in at a random place of each text. What one side reads and the other refuses is tallied.
import { acornTree } from "./acorn_trees.mjs";
import { firstDifference, placesOf } from "./notation.mjs";
import { answers, isRefusal, separator } from "./program.mjs";
import { acornAlone, plain, typescript } from "./tree_texts.mjs";
import { grammarErrors, typescriptTree } from "./typescript_trees.mjs";

const words = process.argv.slice(2);
const isTypeScript = words.includes("--typescript");
const insertions = Number(words.find((word) => /^\d+$/.test(word)) ?? 20);
const levels = 400;
const shown = Number(process.env.SHOWN ?? 4);

const plainTokens = T("a b 1 'c' ` ${ } { ( ) [ ] . ... ; , < > <= == + - ++ -- * ** / % & && | || ?? ? ?. : = += => ! ~ # #a \n in of instanceof typeof "
  + "delete await async yield function class extends static get set new this super null let const var if else for while do return break case default "
  + "throw try catch finally import export from as with switch");
const typedTokens = T(": ! ? as satisfies type interface enum namespace declare abstract readonly public private keyof infer is asserts unique < > T<U> | &");

function T(text) {
  return text.split(" ");
}

/** Numbers below a bound, the same in each run. */
let state = 1;
function random(bound) {
  state = (state * 48271) % 2147483647;
  return state % bound;
}

const pieces = (text) => text.match(/\s+|[A-Za-z_$][\w$]*|\d[\w.]*|"[^"\n]*"|'[^'\n]*'|=>|\.\.\.|\?\.|[-+*/%&|^!~<>=?]+|./gs) ?? [];

/** A text without a token, with it twice, with two exchanged, and with others put in. */
function* mutants(text) {
  const found = pieces(text);
  const made = (...parts) => parts.flat().join("");
  for (let i = 0; i < found.length; i++) {
    yield made(found.slice(0, i), found.slice(i + 1));
    yield made(found.slice(0, i + 1), found.slice(i));
    if (i + 1 < found.length) yield made(found.slice(0, i), found[i + 1], found[i], found.slice(i + 2));
    if (found[i] === " ") yield made(found.slice(0, i), "\n", found.slice(i + 1));
  }
  const tokens = isTypeScript ? [...plainTokens, ...typedTokens, ...typedTokens] : plainTokens;
  for (let i = 0; i < insertions; i++) {
    const at = random(found.length + 1);
    const token = tokens[random(tokens.length)];
    yield made(found.slice(0, at), [" ", token, " "], found.slice(at));
    if (at < found.length) yield made(found.slice(0, at), [token], found.slice(at + 1));
  }
}

const counts = {};
const tallies = {};
function count(what, key, text) {
  counts[what] = (counts[what] ?? 0) + 1;
  if (key === undefined) return;
  tallies[what] ??= new Map();
  const entry = tallies[what].get(key) ?? { times: 0, texts: [] };
  entry.times += 1;
  if (entry.texts.length < shown) entry.texts.push(JSON.stringify(text));
  tallies[what].set(key, entry);
}

const sources = isTypeScript ? [...Object.values(plain), ...Object.values(typescript)].flat() : [...Object.values(plain).flat(), ...acornAlone];
const texts = new Set();
for (const text of sources) for (const mutant of mutants(text)) if (mutant.length < 2000 && !mutant.includes(separator)) texts.add(mutant);

/** The other parser's tree of a text, or its error. */
function theirs(text) {
  try {
    return isTypeScript ? typescriptTree(text) : acornTree(text);
  } catch (error) {
    return error;
  }
}

/** Whether TypeScript's checker refuses what its parser took. */
function isUngrammatical(text) {
  try {
    return grammarErrors(text).length > 0;
  } catch {
    return true;
  }
}

/** Where both refuse, acorn tells the token that it did not expect. */
function bothRefused(answer, error, text) {
  if (isTypeScript || !/^Unexpected token/.test(error.message)) return ["refused by both"];
  const at = placesOf(text)(error.pos);
  if (answer === `Syntax at ${at}`) return ["refused by both at one place"];
  return ["refused by both at two places", `${answer.replace(/\d+$/, "")} ${Number(/\d+$/.exec(answer)[0]) > at ? "later" : "earlier"}`, `${text}   ${answer} ${at}`];
}

const all = [...texts];
for (let from = 0; from < all.length; from += 20000) {
  const part = all.slice(from, from + 20000);
  const found = answers(part.map((text) => ({ mode: isTypeScript ? "typescript" : "plain", levels, text })));
  part.forEach((text, index) => {
    const [answer, tree] = [found[index], theirs(text)];
    if (tree instanceof Error) {
      if (isRefusal(answer)) count(...bothRefused(answer, tree, text));
      else count("read by the program alone", tree.message.replace(/\(.*\)$/, "").replace(/'[^']*'/, "'..'"), text);
    } else if (isRefusal(answer) && isTypeScript && isUngrammatical(text)) {
      count("refused by the program and the checker");
    } else if (isRefusal(answer)) {
      count("refused by the program alone", JSON.stringify(text.slice(Number(/\d+$/.exec(answer)[0])).slice(0, 1)), text);
    } else if (answer === tree) {
      count("equal");
    } else {
      const { ours, theirs: other } = firstDifference(answer, tree);
      count("different", `${ours.slice(-140)} | ${other.slice(-140)}`.slice(0, 300), text);
    }
  });
}

console.log(JSON.stringify(counts));
for (const [what, tally] of Object.entries(tallies)) {
  console.log(`${what}:`);
  for (const [key, { times, texts: some }] of [...tally].sort(([, a], [, b]) => b.times - a.times).slice(0, 60)) {
    console.log(`  ${times} ${key}\n      ${some.join("\n      ")}`);
  }
}

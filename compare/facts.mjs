// Writes crates/ecma_runs/proofs/Facts*.antt: small modules, and what node observes of each.
//   node --expose-internals --experimental-vm-modules compare/facts.mjs
// A fact is its name, the module's source, and what differs from the usual script. The events, the ending and
// the answers come from node, but for how a run ends that node does not end: where it stands at something open or wants turns,
// `before` is what node runs, whose events are those of the run, and `ending` says how it ends then. The facts of what is open
// end as Outside, by default behind `f(1);`. `tree` is the source of the
// tree, where it has types or assignments, `commonJs` says that the module is one of CommonJS, and `unfold` names definitions by which the fact computes.
import { writeFileSync } from "node:fs";
import { observe, answerText, actionText, listText, valueText } from "./host.mjs";
import { enumsOf, itemsOf } from "./trees.mjs";
import { topics } from "./table.mjs";

const folder = new URL("../crates/ecma_runs/proofs/", import.meta.url);

// f and g are the host's values 7 and 8; the module "m" has a default, a name and itself
const frees = [["f", { host: 7 }], ["g", { host: 8 }]];
// in a CommonJS module the functions and objects that node gives it are the host's values 10, 11 and 12
const commonJsFrees = [...frees, ["require", { host: 10 }], ["exports", { host: 11 }], ["module", { host: 12 }]];
const imports = [["m", "default", { host: 9 }], ["m", "a", 5]];
const metaUrl = "file:///m.js";
const nulls = Array.from({ length: 12 }, () => ["Return", null]);

// what a file of facts may use, by module
const modules = [
  ["std.proofs.Common", "refl ℕ pos negsuc List [] ◌∷◌ Option Some None true false codes"],
  ["ecma_number.specs.declared.js_number.JsNumber.TheVariants", "as js_number"],
  ["ecma_kind.specs.declared.kind.Kind.TheVariants", "as kind"],
  ["ecma_kind.specs.declared.operators.AssignOp.TheVariants", "as assign"],
  ["ecma_kind.specs.declared.operators.BinaryOp.TheVariants", "as binary"],
  ["ecma_kind.specs.declared.operators.MetaPropKind.TheVariants", "NewTarget ImportMeta"],
  ["ecma_kind.specs.declared.operators.MethodKind.TheVariants", "as method"],
  ["ecma_kind.specs.declared.operators.UnaryOp.TheVariants", "as unary"],
  ["ecma_kind.specs.declared.operators.UpdateOp.TheVariants", "as update"],
  ["ecma_kind.specs.declared.operators.VarDeclKind.TheVariants", "Var Let Const"],
  ["ecma_runs.specs.declared.observation.Event.TheVariants", "HostGet HostSet HostCall HostNew"],
  ["ecma_runs.specs.declared.observation.Ending.TheVariants", "as ending"],
  ["ecma_runs.specs.declared.script.Action.TheVariants", "as action"],
  ["ecma_runs.specs.declared.script.Answer.TheVariants", "Return Throw"],
  ["ecma_runs.specs.declared.shown.ErrorKind.TheVariants", "as error"],
  ["ecma_runs.specs.declared.shown.Shown.TheVariants", "as shown"],
  [
    "ecma_runs.proofs.Trees",
    "End ◌▸◌ tree absent list ident key computed binding whole truth string null type' this' super' member super_member call new' assign unary binary parens array object property " +
      "statement block returns declare_pattern declare parameter function declare_function function_expression arrow modifiers class_method field constructor' class' declare_class node meaning_node",
  ],
  ["ecma_runs.proofs.ExportTrees", "exports_node"],
  ["ecma_enums.specs.declared.value.TsEnumRecordValue.TheVariants", "as enum_value"],
  ["ecma_enums.specs.Walks", "walk_by"],
  ["ecma_enums.specs.Folding", "value_by"],
  ["ecma_enums.specs.Names", "name_by"],
  ["ecma_enums.specs.Keys", "key_by"],
  ["ecma_strip.specs.Staying", "member_stays_by specifier_stays is_declared"],
  ["ecma_tree.specs.Values", "value_by:is_value_by"],
  ["ecma_runs.proofs.KnownTrees", "reading_node dotted_node"],
  ["ecma_runs.proofs.Scripts", "Does DoesInCommonJs does does_known nulls entry named known"],
  ["std.specs.Fmt", "digits"],
  ["std.specs.Str", "chars"],
  ["ecma_number.specs.Arithmetic", "product_of quotient_of remainder_of power_of"],
  ["ecma_number.specs.Blanks", "front_trimmed end_trimmed"],
  ["ecma_number.specs.Numeral", "is_decimal decimal_value_of scaled"],
  ["ecma_number.specs.StringToNumber", "trimmed_text_number_of unsigned_text_number_of"],
];

const width = 180;

/** A line that is not longer than `width` where it can be broken before an infix operator outside of texts. */
function broken(line) {
  if (line.length <= width || line.startsWith("--")) return line;
  const pieces = line.split(/(?= [▸∷] (?=(?:[^"]*"[^"]*")*[^"]*$))/);
  const lines = [pieces[0]];
  for (const piece of pieces.slice(1)) {
    if (lines.at(-1).length + piece.length > width) lines.push(`     ${piece}`);
    else lines[lines.length - 1] += piece;
  }
  return lines.join("\n");
}

/** The `use` lines of some names of a module. */
function useLines(module, names) {
  const line = `use Rattle.${module}.{${names.join(", ")}}`;
  if (line.length <= width || names.length < 2) return [line];
  const half = names.length >> 1;
  return [...useLines(module, names.slice(0, half)), ...useLines(module, names.slice(half))];
}

/** The `use` lines of a file of facts: what its text names. */
function uses(text) {
  const words = new Set(text.replace(/"(?:[^"\\]|\\.)*"/g, "").replace(/^--.*$/gm, "").match(/[\p{L}_][\p{L}\p{N}_']*(?![\p{L}\p{N}_'.])/gu));
  // `name:other` is a name that is called otherwise here
  const has = (name) => ["◌▸◌", "[]", "◌∷◌"].includes(name) || words.has(name.split(":").at(-1));
  const lines = [];
  for (const [module, names] of modules) {
    if (names.startsWith("as ")) {
      const alias = names.slice(3);
      if (new RegExp(`\\b${alias}\\.`).test(text)) lines.push(`use Rattle.${module} as ${alias}`);
      continue;
    }
    const used = names.split(" ").filter(has).map((name) => name.replace(":", " as "));
    if (used.length > 0) lines.push(...useLines(module, used));
  }
  return lines.join("\n");
}

let count = 0;
for (const { file, title, facts } of topics) {
  let text = "";
  for (const [name, source, options = {}] of facts) {
    const open = file.startsWith("FactsOpen");
    const { turns = 9, answers, actions = [], tree, unfold, commonJs } = options;
    const before = options.before ?? (open && !options.whole ? "f(1);" : undefined);
    const ending = options.ending ?? (open ? "Outside" : undefined);
    const seen = await observe({ body: before ?? source, answers: answers ?? nulls, actions, frees: commonJs ? commonJsFrees : frees, imports, metaUrl });
    const events = seen.events === "[]" ? "[]" : seen.events;
    const items = itemsOf(tree ?? source);
    const known = enumsOf(tree ?? source);
    text += source.trim().split("\n").map((line) => `-- ${line}\n`).join("");
    text += `${name} :\n    ${commonJs ? "DoesInCommonJs" : "Does"} ${turns} ${answers ? `(${listText(answers.map(answerText))})` : "nulls"} ${actions.length ? `(${listText(actions.map(actionText))})` : "[]"}\n`;
    text += `    (${[...items, "End"].join("\n    ▸ ")})\n`;
    text += `    ${events} (${ending ? `ending.${ending}` : seen.ending})\n`;
    const rules = ["meaning_node", actions.some(([kind]) => kind === "ReadExport") && "exports_node", known && "reading_node", known && (tree ?? source).includes("$import_") && "dotted_node"].filter(Boolean);
    const simp = rules.length > 1 ? `simp (${rules.join(", ")})` : `simp ${rules[0]}`;
    const unfolded = [unfold, known && "digits walk_by value_by name_by key_by member_stays_by specifier_stays is_declared is_value_by"].filter(Boolean).join(" ");
    text += `${unfolded ? `unfolding ${unfolded}\n` : ""}${name} = ${known ? `does_known ${known} ${/\$const_enum|NaN|Infinity/.test(tree ?? source) ? "(simp (meaning_node, exports_node) refl)" : "refl"}` : "does refl"} (${simp} refl)\n\n`;
    count += 1;
  }
  const head = `-- ${title}: each fact is a small module and what node observes of it, by computing. Written by compare/facts.mjs.`;
  writeFileSync(new URL(`${file}.antt`, folder), `${head}\n${uses(text)}\n\n${text.trimEnd().split("\n").map(broken).join("\n")}\n`);
}
console.log(`${count} facts`);

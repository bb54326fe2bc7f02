// Asks the checker of TypeScript what it knows of the enums of the modules in the tables of crates/enum_examples/src/records.rt and reads.rt.
//   node --expose-internals compare/enums.mjs
// Of the tables `OTHER` it compares what is said there of the checker, which stands last.
import { readFileSync } from "node:fs";
import { ts } from "./typescript_expressions.mjs";

const K = ts.SyntaxKind;

const isAmbient = (n) => Boolean(n.flags & ts.NodeFlags.Ambient || ts.getCombinedModifierFlags(n) & ts.ModifierFlags.Ambient);

/** A module that refers to no library, and its checker. */
function checked(text) {
  const file = ts.createSourceFile("m.ts", text, ts.ScriptTarget.ESNext, true);
  const host = {
    getSourceFile: (name) => (name === "m.ts" ? file : undefined),
    fileExists: (name) => name === "m.ts",
    readFile: () => undefined,
    writeFile: () => {},
    getDefaultLibFileName: () => "lib.d.ts",
    getCurrentDirectory: () => "/",
    getCanonicalFileName: (name) => name,
    useCaseSensitiveFileNames: () => true,
    getNewLine: () => "\n",
  };
  const options = { noLib: true, target: ts.ScriptTarget.ESNext, module: ts.ModuleKind.ESNext };
  const program = ts.createProgram(["m.ts"], options, host);
  program.getSemanticDiagnostics(); // so that it has looked at all
  return { file, checker: program.getTypeChecker() };
}

const shown = (value, otherwise) => {
  if (value === undefined) return otherwise;
  if (typeof value === "string") return `'${value}`;
  return Object.is(value, -0) ? "-0" : String(value);
};

/** The members of all enums but ambient ones, in the order of the text. */
function recorded(text) {
  const { file, checker } = checked(text);
  const found = [];
  const visit = (n) => {
    if ((n.kind === K.EnumDeclaration || n.kind === K.ModuleDeclaration) && isAmbient(n)) return;
    if (n.kind === K.EnumMember) {
      const value = shown(checker.getConstantValue(n), n.initializer ? "opaque" : "void");
      found.push(`${n.parent.name.text}.${n.name.text}=${value}`);
    }
    ts.forEachChild(n, visit);
  };
  visit(file);
  return found.join(" ");
}

/** What the last statement reads: the value of the member, and what may be written in its place. */
function read(text) {
  const { file, checker } = checked(text);
  const expr = file.statements[file.statements.length - 1].expression;
  const key = expr.kind === K.PropertyAccessExpression ? expr.name : expr.argumentExpression;
  const isAccess = key && (key === expr.name || ts.isStringLiteralLike(key));
  const member = isAccess ? checker.getSymbolAtLocation(key)?.valueDeclaration : undefined;
  const value = member?.kind === K.EnumMember ? checker.getConstantValue(member) : undefined;
  return [shown(value, "none"), shown(isAccess ? checker.getConstantValue(expr) : undefined, "none")].join(" ");
}

const text = /"(?:[^"\\]|\\.)*"/g;

/** The texts of each row of a table: `of` of them. */
function* rows(file, name, of) {
  const source = readFileSync(new URL(`../crates/enum_examples/src/${file}.rt`, import.meta.url), "utf8");
  const begin = source.indexOf("= [", source.indexOf(`const ${name}:`));
  const texts = source.slice(begin, source.indexOf("\n];", begin)).match(text).map((it) => JSON.parse(it));
  for (let i = 0; i < texts.length; i += of) yield texts.slice(i, i + of);
}

let count = 0;
let different = 0;
function compare(module, wanted, theirs) {
  count += 1;
  if (wanted === theirs) return;
  different += 1;
  console.log(`different: ${module}\n  wanted:     ${wanted}\n  TypeScript: ${theirs}`);
}

for (const [module, values] of rows("records", "RECORDS", 2)) compare(module, values, recorded(module));
for (const [module, , values] of rows("records", "OTHER", 3)) compare(module, values, recorded(module));
for (const [module, ...values] of rows("reads", "READS", 3)) compare(module, values.join(" "), read(module));
for (const [module, , , ...values] of rows("reads", "OTHER", 5)) compare(module, values.join(" "), read(module));
console.log(`${count} texts, ${different} different`);
process.exitCode = different ? 1 : 0;

// Compares what a program makes of TypeScript modules with what TypeScript itself makes of them: acorn reads both texts, and the trees are to
// be the same, but for places, parentheses, directives, the source texts of literals, and empty statements in lists.
//   node --expose-internals compare/convert.mjs PROGRAM [--most=BYTES] [--seconds=N] [--shown=N] [--blanked] [--plain] FOLDER..
// PROGRAM reads a module from standard input, writes one to standard output, and ends with 1 and a line `error: ..` where it refuses. Files are
// those that end in .ts, .mts and .cts, and with --plain in .js and .mjs too, with --most up to that size. TypeScript is Debian's
// node-typescript, or the one that the variable TYPESCRIPT names. What TypeScript or acorn does not read is passed over, but counted where
// the program reads it. With --blanked import and export assignments, enums and namespaces that do not go with the types, the modifiers of
// parameters and decorators are blanks first, so that all else of such files is compared. Each run of the program ends after N seconds (60), and so does TypeScript. What was
// written is converted once more, with `--verbatim`, and is to stay. A run that is ended by a signal tells what it has counted so far.
import { spawnSync } from "node:child_process";
import { readFileSync } from "node:fs";
import { isMainThread, parentPort, Worker } from "node:worker_threads";
import { fileURLToPath } from "node:url";
import { parseModule } from "./acorn_trees.mjs";
import { firstDifference } from "./notation.mjs";
import { counting, filesIn, plain } from "./real_trees.mjs";
import { ts } from "./typescript_expressions.mjs";

const words = process.argv.slice(2);
const given = (name, otherwise) => Number(words.find((word) => word.startsWith(`--${name}=`))?.slice(name.length + 3) ?? otherwise);
const [program, ...folders] = words.filter((word) => !word.startsWith("--"));
const most = given("most", 4_194_304);
const seconds = given("seconds", 60);
const shown = given("shown", 25);
const blanked = words.includes("--blanked");
const isWanted = words.includes("--plain") ? /\.[mc]?ts$|\.m?js$/ : /\.[mc]?ts$/;
const K = ts.SyntaxKind;

const compilerOptions = {
  target: ts.ScriptTarget.ESNext, module: ts.ModuleKind.ESNext, verbatimModuleSyntax: false, isolatedModules: true, removeComments: true,
  useDefineForClassFields: true,
};

/** What the program makes of a module, or why there is nothing. */
function converted(bytes, ...options) {
  const run = spawnSync("bash", ["-c", 'ulimit -s unlimited; exec "$0" "$@"', program, ...options], { input: bytes, maxBuffer: 2 ** 30, timeout: seconds * 1000, killSignal: "SIGKILL" });
  if (run.status === 0) return { text: run.stdout };
  if (run.error?.code === "ETIMEDOUT") return { failure: `no answer in ${seconds} seconds` };
  if (run.error && run.error.code !== "EPIPE") return { failure: run.error.code ?? run.error.message };
  const refusal = run.stderr.toString().trim();
  if (run.status === 1 && refusal.startsWith("error: ")) return { refusal };
  return { failure: `ended with ${run.status ?? run.signal}: ${refusal.slice(0, 200)}` };
}

// trees

const lists = { Program: "body", BlockStatement: "body", StaticBlock: "body", SwitchCase: "consequent" };
const isStrictness = (n) => n.type === "ExpressionStatement" && n.directive === "use strict";
const left = new Set(["directive", "bigint"]);

/** What stands behind a key of a node, without empty statements in lists, and without the directive that modules do not need. */
function inner(node, key) {
  if (key !== lists[node.type]) return node[key];
  return node[key].filter((n) => n.type !== "EmptyStatement" && !(node.type === "Program" && isStrictness(n)));
}

// This part runs in a thread of its own, with a large stack, since trees may be deep; and since TypeScript may take without end.

/** acorn's tree of a text in one line, or why there is none. */
function treeOf(text) {
  try {
    return { tree: JSON.stringify(plain(parseModule(text, true), left, inner)) };
  } catch (error) {
    if (error instanceof SyntaxError) return { refusal: `acorn: ${error.message}` };
    if (error instanceof RangeError) return { failure: `acorn: ${error.message}` };
    throw error;
  }
}

// TypeScript puts `export {}` behind a module for `import.meta` too
const moduleItem = /^\s*(?:import\b(?!\s*[.(])|export\b)/m;
const withoutMark = (source, text) => (moduleItem.test(source) ? text : text.replace(/export \{\s*\};?\s*$/, ""));

/** The tree of what TypeScript makes of a module, or why there is none. */
function theirs(text) {
  try {
    const { outputText, diagnostics } = ts.transpileModule(text, { compilerOptions, fileName: "m.ts", reportDiagnostics: true });
    if (diagnostics.length) return { refusal: `TypeScript: ${ts.flattenDiagnosticMessageText(diagnostics[0].messageText, " ")} (${diagnostics[0].start})` };
    return treeOf(withoutMark(text, outputText));
  } catch (error) {
    return { failure: `TypeScript: ${String(error.message).split("\n")[0]}` };
  }
}

// what is blanked

const isWordOfParameter = new Set([K.PublicKeyword, K.PrivateKeyword, K.ProtectedKeyword, K.ReadonlyKeyword, K.OverrideKeyword]);

const isAmbient = (n) => (n.modifiers ?? []).some((word) => word.kind === K.DeclareKeyword);

/** Whether an enum or a namespace goes with the types. */
const goes = (n) => isAmbient(n) || (n.kind === K.ModuleDeclaration && ts.getModuleInstanceState(n) === 0);

/** A module with blanks for what the program may not take yet. */
function blank(text) {
  const file = ts.createSourceFile("m.ts", text, ts.ScriptTarget.Latest, true, ts.ScriptKind.TS);
  const spans = [];
  const put = (from, to, what = "") => void spans.push([from, to, what]);
  const putWhole = (n, what) => put(n.getStart(file), n.end, what);
  function visitParameter(n) {
    for (const word of n.modifiers ?? []) if (isWordOfParameter.has(word.kind)) putWhole(word);
  }
  function visit(n) {
    const isPart = n.kind === K.EnumDeclaration || n.kind === K.ModuleDeclaration;
    if (n.kind === K.ImportEqualsDeclaration || (isPart && !goes(n))) return putWhole(n);
    if (n.kind === K.ExportAssignment && n.isExportEquals) put(n.getStart(file), n.expression.getStart(file), "0,");
    if (n.kind === K.Parameter) visitParameter(n);
    for (const word of n.modifiers ?? []) if (word.kind === K.Decorator) putWhole(word);
    if (!isPart) ts.forEachChild(n, visit);
  }
  ts.forEachChild(file, visit);
  let result = "";
  let done = 0;
  for (const [from, to, what] of spans.sort(([one], [other]) => one - other)) {
    if (from < done) continue;
    result += text.slice(done, from) + what + text.slice(from + what.length, to).replace(/[^\n\r\u2028\u2029]/g, " ");
    done = to;
  }
  return result + text.slice(done);
}

// counts

const { counts, examples, count } = counting(shown);

/** The token that begins at a place, or what kind of one it is. */
function tokenAt(text) {
  if (text === "") return "the end";
  if (/^["'`]/.test(text)) return `a text in ${text[0]}`;
  if (/^\d/.test(text)) return "a numeral";
  if (/^\/[/*]/.test(text)) return "a comment";
  const [token] = /^[\p{ID_Start}$_][\p{ID_Continue}$]*|^(?:\.\.\.|=>|\?\.|\?\?|&&|\|\||[=!]==?|[<>]=?|\*\*|\+\+|--|[-+*/%&|^]=)|^[^]/u.exec(text);
  return JSON.stringify(token);
}

/** A refusal by its name, with what stands at its place. */
function tally(bytes, refusal) {
  const [, name, at] = /^error: (\w+)(?:.* at (\d+))?/.exec(refusal) ?? [null, refusal];
  const around = at === undefined ? "" : ` ${JSON.stringify(bytes.subarray(Math.max(0, at - 60), Number(at) + 30).toString())}`;
  const kind = name === "Syntax" && at !== undefined ? `Syntax before ${tokenAt(bytes.subarray(Number(at), Number(at) + 60).toString().trimStart())}` : name;
  return [`refused, ${kind}`, around];
}

/** A thread that reads texts, one at a time: a new one where an answer takes too long. */
class Reader {
  start() {
    this.thread = new Worker(fileURLToPath(import.meta.url), { argv: words, resourceLimits: { stackSizeMb: 256, maxOldGenerationSizeMb: 4096 } });
    this.thread.on("message", (answer) => this.take(answer));
    this.thread.on("error", (error) => this.take({ failure: error.message }, true));
  }

  take(answer, isEnded) {
    clearTimeout(this.clock);
    if (isEnded) this.end();
    this.answer?.(answer);
  }

  ask(what, text) {
    if (!this.thread) this.start();
    return new Promise((resolve) => {
      this.answer = resolve;
      this.clock = setTimeout(() => this.take({ failure: `no tree in ${seconds} seconds` }, true), seconds * 1000);
      this.thread.postMessage({ what, text });
    });
  }

  end() {
    this.thread?.removeAllListeners();
    this.thread?.terminate();
    this.thread = undefined;
  }
}

const reader = new Reader();

async function judge(file, bytes, text) {
  const answer = converted(bytes);
  const wanted = await reader.ask("theirs", text);
  if (answer.failure !== undefined) return count("failed", `${file}: ${answer.failure}`);
  if (wanted.failure !== undefined) return count("not compared", `${file}: ${wanted.failure}`);
  if (answer.refusal !== undefined) {
    if (wanted.tree === undefined) return count("refused by both", `${file}: ${answer.refusal}; ${wanted.refusal}`);
    const [what, around] = tally(bytes, answer.refusal);
    return count(what, `${file}: ${answer.refusal}${around}`);
  }
  if (wanted.tree === undefined) return count("read by the program alone", `${file}: ${wanted.refusal}`);
  const written = await reader.ask("ours", answer.text.toString());
  if (written.tree !== wanted.tree) {
    const difference = firstDifference(written.tree ?? written.refusal ?? written.failure, wanted.tree);
    return count("different", `${file}\n    program:    ${difference.ours}\n    TypeScript: ${difference.theirs}`);
  }
  count("same");
  counts["bytes of the same"] = (counts["bytes of the same"] ?? 0) + bytes.length;
  // an import that only an ambient declaration uses stays, and would go now
  const again = converted(answer.text, "--verbatim");
  if (!again.text?.equals(answer.text)) count("not the same when converted again", `${file}: ${again.refusal ?? again.failure ?? ""}`);
}

const seen = new Set();

function report() {
  console.log(`TypeScript ${ts.version}, acorn ${process.versions.acorn}, ${seen.size} files${blanked ? ", blanked" : ""}`);
  const refused = Object.entries(counts).filter(([what]) => what.startsWith("refused, ")).sort(([, one], [, other]) => other - one);
  for (const [what, times] of Object.entries(counts)) if (!what.startsWith("refused, ")) console.log(`${what}: ${times}`);
  console.log(`refused by the program alone: ${refused.reduce((sum, [, times]) => sum + times, 0)}`);
  for (const [what, times] of refused) console.log(`  ${what}: ${times}`);
  for (const [what, list] of examples) for (const example of list) console.log(`${what}: ${example}`);
}

async function judgeAll() {
  for (const file of folders.flatMap((folder) => [...filesIn(folder, isWanted)])) {
    const source = readFileSync(file).toString().replace(/^\ufeff/, "");
    const text = blanked && source.length <= most ? (await reader.ask("blank", source)).text ?? source : source;
    const bytes = Buffer.from(text);
    if (bytes.length > most || seen.has(text)) continue;
    seen.add(text);
    await judge(file, bytes, text);
  }
  reader.end();
  report();
}

const answers = { theirs, ours: treeOf, blank: (text) => ({ text: blank(text) }) };

if (!isMainThread) {
  parentPort.on("message", ({ what, text }) => {
    try {
      parentPort.postMessage(answers[what](text));
    } catch (error) {
      parentPort.postMessage({ failure: String(error.message).split("\n")[0] });
    }
  });
} else if (program === undefined || folders.length === 0) {
  console.error("usage: node --expose-internals compare/convert.mjs PROGRAM [--most=BYTES] [--seconds=N] [--shown=N] [--blanked] [--plain] FOLDER..");
  process.exitCode = 2;
} else {
  // what is counted so far, where the run is ended before its end
  for (const signal of ["SIGINT", "SIGTERM"]) process.on(signal, () => (report(), process.exit(1)));
  await judgeAll();
}

// What finders find in small modules, by walks of their own over acorn's trees: acorn's types of nodes, its fields, and what each finder is said to list.
// It writes crates/findings/stdin and stdout, which the gate compares the program with.
//   node --expose-internals compare/findings.mjs
import { writeFileSync } from "node:fs";
import { fileURLToPath } from "node:url";
import { parseModule } from "./acorn_trees.mjs";

const texts = [
  // names of declarations and patterns
  "const { a, b = 1, inner: { c }, ...d } = {};",
  "const [ a, b = 1, [c], ...d ] = [];",
  "var { a, b = 1, inner: { c }, ...d } = {};",
  "var [ a, b = 1, [c], ...d ] = [];",
  "let { [a]: b = c, d: [e = a] } = f; var g = function h(i) { var j; }, k = l => m;",
  "export default class Foo { }",
  "export default function foo() { var a; }",
  "export default function ({ a }, b = c) { }",
  "export default class extends a { m(b) { let c; } }",
  "import a, { b as c, d } from 'm'; import * as e from 'n'; export { c as f }; export * as g from 'o';",
  "function a(b, c = d, ...e) { var f; function g() { } let h; for (var i in b) ; for (const j of c) ; for (k of d) ; }",
  "try { var a; } catch ({ b, c = d }) { var e; let f; } for (var [g] of h) { } for ([i] of j) { } for (let l;;) { }",
  "class A { constructor(a) { } static b(c) { } get d() { } set e(f) { } static { var g; } #h = i => j; }",
  "x = { set a(b) { }, get c() { return d; }, e(f) { }, [g]: h, i, j: k => l }; label: for (;;) break label;",
  "var a = ({ b, c: d }) => { let e; try { } catch (f) { } for (g of h) ; }; if (a) { var i; function j() { } }",
  "switch (a) { case b: var c; let d; default: function e() { } } while (f) var g; do { var h } while (i);",
  // `this` and `arguments`
  "() => this; function f() { arguments; }",
  "function f() { this; } class A { constructor() { this; } m() { this; } }",
  "class A { a = this; } ",
  "class A { static { this; } [arguments] = 1; }",
  "x = { get a() { this; }, set b(c) { this; }, d() { this; } }; x = { arguments };",
  "x = { set b(c = this) { } }; x = { get [arguments]() { } };",
  "x = { get [this]() { } }; arguments.length; f(...arguments);",
  "x = { arguments: 1 }; x.arguments; x = { get a() { arguments } }",
  // references
  "let a = b; ({ a }); a: for (;;) break a; x.a; ({ a: 1 });",
  "a = 1; [a] = b; ({ a: x } = y); for (a of b) ;",
  "a++; a.b = 1; x[a]; ({ [a]: 1 }); `${a}`; a => 1;",
  "import { a } from 'm'; export { a };",
  // `await`
  "if (maybe) { await test; }",
  "for await (let iter of []) { } f(async (a = b) => { await c; });",
  "export default await 1;",
  "async function f() { await 1; for await (a of b) ; } class A { async m() { await 1; } async [f(await 2)]() { } }",
  "async function f(a) { await 1; } async () => { await 2; }; x = { async m() { await 3; }, async n() { for await (a of b) ; } };",
  "x = { a: await 1 }; class A extends (await 2) { }",
  "x = { a: await 1, b() { } }; class A { b = 1; }",
  "x = { [await 1]: 2 };",
  // rest patterns
  "f(...a); [...a]; x = { ...a }; [...a.b] = c;",
  "({ ...a } = b);",
  "function f([a, ...b]) { }",
  "f(a => { try { } catch ([...b]) { } });",
];

const isNode = (value) => value !== null && typeof value === "object" && typeof value.type === "string";

/** The children of a node in the order of the text, with the field that each stands in. A shorthand stands once. */
function fields(n) {
  const found = [];
  for (const [field, value] of Object.entries(n)) {
    for (const child of Array.isArray(value) ? value : [value]) {
      if (isNode(child)) found.push([field, child]);
    }
  }
  if (n.type === "Property" && n.shorthand) return found.filter(([field]) => field === "value");
  if (/^(Import|Export)Specifier$/.test(n.type) && n.local.start === (n.imported ?? n.exported).start) return found.filter(([field]) => field === "local");
  // the name that an import declares stands first in the trees of the program
  if (n.type === "ImportSpecifier") return found.sort((x, y) => (x[0] === "local" ? -1 : 1));
  return found.sort((x, y) => x[1].start - y[1].start);
}

/** How a node stands: as an expression, a pattern, a declared name, or as something else. */
const typeOfPattern = /^(ObjectPattern|ArrayPattern|RestElement|AssignmentPattern)$/;

function childStands(n, field, child, stands) {
  switch (n.type) {
    case "VariableDeclarator": return field === "id" ? "declared" : "expression";
    case "FunctionDeclaration": case "FunctionExpression": case "ArrowFunctionExpression":
      return field === "params" ? (n.isSetterOfObject ? "bound" : "declared") : field === "id" ? "name" : field === "body" && child.type !== "BlockStatement" ? "expression" : "body";
    case "ClassDeclaration": case "ClassExpression": return field === "id" ? "name" : field === "superClass" ? "expression" : "other";
    case "CatchClause": return field === "param" ? "bound" : "other";
    case "ForInStatement": case "ForOfStatement":
      return field === "left" ? (child.type === "VariableDeclaration" ? "other" : patternOrTarget(child)) : field === "right" ? "expression" : "other";
    case "AssignmentExpression": return field === "left" ? (child.type === "Identifier" ? "target" : patternOrTarget(child)) : "expression";
    case "ObjectPattern": case "ArrayPattern": case "RestElement": return inPattern(child, stands);
    case "AssignmentPattern": return field === "left" ? inPattern(child, stands) : "expression";
    case "Property":
      if (field === "key") return n.computed ? "expression" : "key";
      if (n.ofPattern) return inPattern(child, stands);
      return n.shorthand ? "shorthand" : "expression";
    case "MethodDefinition": case "PropertyDefinition": return field === "key" ? (n.computed ? "expression" : "key") : "expression";
    case "MemberExpression": return field === "object" || n.computed ? "expression" : "key";
    case "LabeledStatement": case "BreakStatement": case "ContinueStatement": return field === "label" ? "name" : "other";
    case "ImportSpecifier": case "ImportDefaultSpecifier": case "ImportNamespaceSpecifier": case "ExportSpecifier": case "ExportAllDeclaration": return "name";
    case "ExportDefaultDeclaration": return /^(Function|Class)Declaration$/.test(child.type) ? "other" : "expression";
    case "MetaProperty": return "key";
    case "TemplateLiteral": case "TaggedTemplateExpression": return field === "quasi" || field === "quasis" ? "other" : "expression";
    default: return /Statement|Program|VariableDeclaration|SwitchCase|StaticBlock|Class|Export|Import/.test(n.type)
      ? (/Statement|Declaration|SwitchCase|Block|CatchClause|Specifier|VariableDeclarator|MethodDefinition|PropertyDefinition|ClassBody/.test(child.type) ? "other" : "expression")
      : "expression";
  }
}

/** A pattern that is assigned to: a plain name there is a bound one, all else but a pattern is an expression. */
const patternOrTarget = (child) => (child.type === "Identifier" || typeOfPattern.test(child.type) ? "bound" : "expression");
const inPattern = (child, stands) => (child.type === "Identifier" || child.type === "Property" || typeOfPattern.test(child.type) ? stands : "expression");

/** Lists nodes: `at` gives an item, `enters` says whether a node is entered, and `child` whether one of its children is. */
function walk(n, stands, up, { lists, leavesOut = () => false, enters = () => true }, found) {
  if (leavesOut(n, stands, up)) return found;
  if (lists(n, stands, up)) found.push(n);
  const into = { ...n };
  if (n.type === "ObjectPattern") for (const p of n.properties) p.ofPattern = true;
  if (n.type === "ObjectExpression") for (const p of n.properties) {
    p.ofObject = true;
    if (p.kind === "set") p.value.isSetterOfObject = true;
    if (p.kind === "get" || p.kind === "set" || p.method) p.value.ofProperty = p.kind;
  }
  for (const [field, child] of fields(n)) {
    if (enters(n, field, child, up)) walk(child, childStands(n, field, child, stands), { parent: n, field, up }, { lists, leavesOut, enters }, found);
  }
  return found;
}

const isFunction = (n) => n.type === "FunctionDeclaration" || n.type === "FunctionExpression";
const isArrow = (n) => n.type === "ArrowFunctionExpression";
const isIdent = (n, stands) => n.type === "Identifier" && stands !== "key";
const isAccessor = (n) => n.type === "Property" && n.ofObject && (n.kind === "get" || n.kind === "set");

/** Expressions by what they are there for; what an accessor or a method holds is a part of it, and no expression. */
const isExpression = (n, stands, up) =>
  stands === "expression" && !(up?.parent && /^(MethodDefinition)$/.test(up.parent.type) && up.field === "value") && !(up?.parent && up.parent.type === "Property" && up.field === "value" && n.ofProperty !== undefined);

// the functions of getters and setters of objects are entered by some: their nodes have no function of their own in between
const plainFunction = (n) => isFunction(n) && !(n.ofProperty === "get" || n.ofProperty === "set");

const finders = {
  this: {
    lists: (n) => n.type === "ThisExpression",
    leavesOut: (n) => plainFunction(n),
    enters: (n, field) => !(n.ofProperty === "get") && !(n.ofProperty === "set" && field === "body"),
  },
  arguments: {
    lists: (n, stands, up) => n.type === "Identifier" && n.name === "arguments" && (isExpression(n, stands, up) || stands === "shorthand"),
    leavesOut: (n) => plainFunction(n),
  },
  reference: { lists: (n, stands, up) => n.type === "Identifier" && n.name === "a" && isExpression(n, stands, up) },
  usage: { lists: (n, stands) => isIdent(n, stands) && n.name === "a" },
  await: {
    lists: (n) => n.type === "AwaitExpression" || (n.type === "ForOfStatement" && n.await),
    leavesOut: (n) => isFunction(n) || isArrow(n) || n.type === "StaticBlock",
    enters: (n, field) => !(((n.type === "Property" && !n.ofPattern) || /^(MethodDefinition|PropertyDefinition)$/.test(n.type)) && field !== "key"),
  },
  rest: { lists: (n) => n.type === "RestElement" },
};

const names = {
  vars: {
    lists: (n, stands, up) => (n.type === "Identifier" && stands === "declared" && isOfVar(up)) || (n.type === "Identifier" && stands === "name" && up.parent.type === "FunctionDeclaration" && !isDefault(up)),
    leavesOut: (n, stands, up) => isExpression(n, stands, up) || isArrow(n) || n.type === "ClassBody",
    enters: (n, field) => !(isFunction(n) && field !== "id") && n.type !== "ClassDeclaration",
  },
  pattern: { lists: (n, stands) => isIdent(n, stands), leavesOut: (n, stands, up) => isExpression(n, stands, up) || stands === "key" },
  collected: {
    lists: (n, stands) => isIdent(n, stands),
    leavesOut: (n, stands, up) => isExpression(n, stands, up) || isArrow(n) || stands === "key" || n.type === "MethodDefinition" || n.type === "PropertyDefinition",
    enters: (n, field) => !(isFunction(n) && field !== "id"),
  },
};

const declared = {
  lists: (n, stands, up) =>
    n.type === "Identifier" &&
    (stands === "declared" || (stands === "name" && ((/^(Function|Class)Declaration$/.test(up.parent.type) && up.field === "id") || (/^Import/.test(up.parent.type) && up.field === "local")))),
};
const bindings = { lists: (n, stands) => n.type === "Identifier" && (stands === "declared" || stands === "bound"), leavesOut: (n, stands, up) => isExpression(n, stands, up) };

const isDefault = (up) => up.up?.parent?.type === "ExportDefaultDeclaration";

/** Whether a declared name belongs to a `var`. */
function isOfVar(up) {
  let at = up;
  while (at && at.parent.type !== "VariableDeclaration" && !isFunction(at.parent) && !isArrow(at.parent)) at = at.up;
  return at?.parent.type === "VariableDeclaration" && at.parent.kind === "var";
}

function answer(text) {
  const program = parseModule(text, true, []);
  const run = (finder) => program.body.flatMap((item) => walk(item, "other", { parent: program, field: "body", up: null }, finder, []));
  const lines = Object.entries(finders).map(([name, finder]) => `${name} ${run(finder).length > 0}`);
  const listed = Object.entries(names).map(([name, finder]) => [name, run(finder).map((n) => n.name)]);
  for (const [name, found] of listed) lines.push([name, ...found].join(" "));
  const set = new Set(run(declared).map((n) => n.name));
  lines.push(["declared", set.size, ...listed[1][1].filter((name) => set.has(name))].join(" "));
  const bound = run(bindings).map((n) => n.name);
  lines.push(`bindings ${bound.length} ${bound.filter((name) => name === "a").length}`);
  return lines.map((line) => `${line}\n`).join("");
}

const folder = fileURLToPath(new URL("../crates/findings/", import.meta.url));
writeFileSync(`${folder}stdin`, texts.join("\n=-=-=\n"));
writeFileSync(`${folder}stdout`, texts.map(answer).join(""));
console.log(`${texts.length} texts`);

// Plain texts that acorn and the program must both refuse: those that are against the grammar, and with --finished, where the program
// is one that finishes its trees, also those that are against a rule on what stands where.
//   node --expose-internals compare/wrong_texts.mjs [--finished]
import { acornTree } from "./acorn_trees.mjs";
import { answers, isRefusal } from "./program.mjs";

const T = String.raw;

/** Against the grammar of ECMAScript. */
const ungrammatical = [
  // lexical grammar (ECMAScript, 12)
  "/* a", "'a", "\"a\nb\"", "`a", "`${a", "`a${}`", "1a", "1_", "1__0", "0x", "0b2", "0o8", "1n2", "1.5n", "01n", "010", "08",
  "1e", "1.e+", "\\", "@a", "#", "# a", "a#b", "/a", "/a\n/", "/[/", T`"\x1"`, T`"\u12"`, T`"\u{110000}"`, T`"\08"`, T`"\1"`,
  T`"\8"`, "`\\u`", "`\\1`", "a?.`b`", "1.a", "#!a\n#!b", " #!a", "a\u2028?.", "<!--a", "a\n--> b",
  // primary expressions, members and calls (13.2, 13.3)
  "(", "()", "(a", "(a,)", "(...a)", "[", "[a", "[a b]", "{a: 1, b: 2}", "({", "({a", "({a b})", "({a:})", "({,})", "({a,,b})",
  "({1})", "({'a'})", "({if})", "({[a]})", "({get a})", "({get a: 1})", "({set a})", "({async a: 1})", "({*a: 1})",
  "({get *a() {}})", "({async get a() {}})", "({a(){}b(){}})", "({#a: 1})", "({static a() {}})", "a.", "a.1", "a.'b'", "a[",
  "a[]", "a[b", "f(", "f(,)", "f(a,,b)", "f(a b)", "new", "new.", "new.a", "import.a", "import.", "import", "super", "super.#a",
  "a?.", "a?.1", "a??.b", "this.this.1", "a..b", "a...b",
  // operators (13.4 to 13.16)
  "a++b", "++", "a ++ ++", "-a ** b", "typeof a ** b", "a ** ", "a *", "a +", "* a", "a === ", "a ? b", "a ? b :", "a ? : b",
  "a : 1 : 2", "a ?? b || c", "a || b ?? c", "a && b ?? c", "a ?? b && c", "a =", "= a", "a = = b", "a => ", "=> a",
  "a => {} ()", "a => {}.b", "() => {} || a", "a || () => {}", "()\n=> a", "a\n=> b", "async a\n=> b", "async ()\n=> a",
  "(a, b) = > c", "(a.b) => c", "([a.b]) => c", "(1) => a", "(...a.b) => c", "(a) => {} ()", "a,", ", a", "a,,b",
  "a instanceof", "in a", "a in", "!", "await", "delete", "void", "#a", "#a in", "(#a) in b", "a = #b in c in",
  // statements (14)
  "{", "}", "{ a", "a b", "if", "if a", "if (a)", "if () a", "if (a) b else c d", "else a", "for", "for (", "for (;)",
  "for (a)", "for (;;;) a", "for (a; b) c", "for (a in b; c) d", "for (a of b, c) d", "for (let a, b c) ;", "for (a b of c) ;",
  "for await (a in b) c", "for await (;;) a", "for each (a in b) c", "while", "while a", "while () a", "while (a)", "do",
  "do a", "do a while (b)", "do a; while", "do a b while (c)", "switch", "switch (a)", "switch (a) b", "switch (a) { b }",
  "switch (a) { case: }", "switch (a) { case b }", "switch (a) { default b: }", "try", "try {}", "try a", "try {} catch",
  "try {} catch () {}", "try {} catch (a, b) {}", "try {} catch a {}", "try {} finally", "catch {}", "throw", "throw\na",
  "return a b", "break 1", "a: ", "1: a", "a: b c", "debugger a", "var", "var 1", "var a b", "var a =", "var a,", "let",
  "let 1", "let a =", "const", "const = 1", "var if", "let class", "var [a", "var {a", "var {a:}", "var {1}", "var {if}",
  "var [a.b] = c", "var {a: b.c} = d", "var (a) = b", "with (a) b", "enum A {}", "package", "a\n++", "if (a) else b",
  "var a.b = c", "let [a] b",
  // functions and classes (15)
  "function", "function f", "function f(", "function f()", "function f() ", "function () {}", "function f(a {}",
  "function f(a b) {}", "function f(,) {}", "function f(a,,b) {}", "function f(1) {}", "function f(...) {}",
  "function f() => a", "function f() { ", "function* () {}", "async function () {}", "function f(a = ) {}",
  "function f(a.b) {}", "function if() {}", "(function*f() {}", "async function", "class", "class {}", "class A", "class A {",
  "class A extends {}", "class A extends B, C {}", "class A extends B extends C {}", "class A { a b }", "class A { a = }",
  "class A { a: 1 }", "class A { a, b }", "class A { get a }", "class A { get a: 1 }", "class A { a() }", "class A { a( }",
  "class A { a() {}, b() {} }", "class A { static { }", "class A { async *a }", "class A { *a }", "class A { *a = 1 }",
  "class A { # a }", "class A { #1 }", "class A { [a }", "class A { [] }", "class A { get *a() {} }",
  "class A { async get a() {} }", "class A { let a }", "class A { var a = 1 }", "class A { function a() {} }",
  "class A { a() {} b c }", "class A extends a = b {}", "class A extends a + b {}", "class A extends () => {} {}", "class 1 {}",
  "class if {}", "class A { 'a' 'b' }",
  // modules (16.2)
  "import", "import a", "import a from", "import a from b", "import { a }", "import { a from 'm'", "import {a b} from 'm'",
  "import { a as } from 'm'", "import { 'a' } from 'm'", "import { if } from 'm'", "import * from 'm'", "import * as 'm'",
  "import a, from 'm'", "import a b from 'm'", "import a, b from 'm'", "import { a }, b from 'm'",
  "import { a },  * as b from 'm'", "import { default } from 'm'", "{ import a from 'm' }", "if (a) import 'm'", "import 'm' a",
  "import 'm' with", "import 'm' with { a }", "import 'm' with { a: 1 }", "import 'm' with { [a]: 'b' }", "export", "export a",
  "export 1", "export { a", "export { a b }", "export { a as }", "export { a.b }", "export default", "export default var a",
  "export default const a = 1", "export default a b", "export default a,", "export default 1, 2", "export *", "export * as",
  "export * as a", "export * from", "export * from a", "export * a from 'm'", "export { a } from", "export { a } from b",
  "export function () {}", "export class {}", "export async () => {}", "export if (a) b", "{ export let a }", "export let",
  "export var 1", "export default async function", "export =", "import a = require('m')", "export { a } with {}",
];

/** Read by the grammar, but against an early error or a rule on targets (ECMAScript, 13.15, 14.7, 15, 16.2). */
const misplaced = [
  "1 = a", "a() = b", "a + b = c", "(a, b) = c", "[1] = a", "[a()] = b", "({ a: 1 } = b)", "({ a() {} } = b)",
  "({ get a() {} } = b)", "[a + b] = c", "[...a, b] = c", "({ ...a, b } = c)", "[...a,] = b", "({ ...{ a } } = b)", "[a] += b",
  "({ a } += b)", "([a]) = b", "({ a }) = b", "[([a])] = b", "a?.b = c", "a?.b++", "++a?.b", "1++", "++1", "a++ = b", "a()++",
  "import.meta = a", "({ a = 1 })", "({ a = 1 }).b", "f({ a = 1 })", "[{ a = 1 }]", "({ a = 1 } + b)", "for (1 of a) ;",
  "for (a() in b) ;", "for (a = 1 of b) ;", "for (let a = 1 of b) ;", "for (let a = 1 in b) ;", "for (let a, b of c) ;",
  "for (var a, b in c) ;", "for ([a, 1] of b) ;", "for (a?.b of c) ;", "var [...a, b] = c", "var { ...a, b } = c",
  "function f(...a, b) {}", "(...a, b) => c", "function f(...a,) {}", "var [...a,] = b", "try {} catch ([...a, b]) {}",
  "class A { constructor() {} constructor() {} }", "class A { get constructor() {} }", "class A { set constructor(a) {} }",
  "class A { *constructor() {} }", "class A { async constructor() {} }", "class A { get a(b) {} }", "class A { set a() {} }",
  "class A { set a(b, c) {} }", "class A { set a(...b) {} }", "({ get a(b) {} })", "({ set a() {} })", "({ set a(b, c) {} })",
  "export { 'a' }", "export { 'a' as b }", "if (a) let b", "if (a) const b = 1", "if (a) class B {}", "if (a) ; else let b",
  "while (a) let b", "for (;;) let a", "for (;;) class A {}", "do class A {} while (b)", "a: class B {}", "a: let b",
  "while (a) function f() {}", "for (;;) function f() {}", "if (a) async function f() {}",
];

const isWrong = (text) => {
  try {
    acornTree(text, { lenient: false });
    return false;
  } catch (error) {
    return error instanceof SyntaxError;
  }
};

const texts = [...new Set(process.argv.includes("--finished") ? [...ungrammatical, ...misplaced] : ungrammatical)];
const found = answers(texts.map((text) => ({ mode: "plain", levels: 40, text })));
const taken = texts.filter((text) => !isWrong(text));
const read = texts.filter((text, index) => !isRefusal(found[index]));
for (const text of taken) console.log(`acorn reads ${JSON.stringify(text)}`);
for (const text of read) console.log(`the program reads ${JSON.stringify(text)}`);
console.log(`${texts.length} texts, ${taken.length} read by acorn, ${read.length} by the program`);

// The texts of the table of trees, by topic. Plain ones are read as both a plain module and a TypeScript module; those of
// `typescript` as TypeScript alone.

const T = String.raw;

export const plain = {
  modules: [
    "", "// nothing\n  ", ";", "a", "  a ;  // b\n", "#!/usr/bin/env node\nf()", "#!x", "a\nb\n\nc", "/* a\n */ b /* c */;",
  ],
  imports: [
    T`import "m"`, T`import a from "m";`, "import * as a from 'm'", T`import {} from "m"`, T`import { a } from "m";`,
    T`import { a, b as c, default as d, } from "m"`, T`import a, * as b from "m"`, T`import a, { b } from "m"`,
    T`import { as as as } from "m"`, T`import { as } from "m"`, T`import { type } from "m"`, T`import from from "from"`,
    T`import type from "m"`, T`import async, { of, get, set } from "m"`,
  ],
  exports: [
    "export default 1", "export default function () {}", "export default function f() {} f()",
    "export default async function* () {}", "export default class {}", "export default class A {};",
    "export default (class {}).a;", "export default a = b", "export default async () => 1", "export {}",
    "export { a, b as c, d as default }; let a, b, d;", T`export * from "m"`, T`export * as a from "m";`,
    T`export { default } from "m"`, T`export { default as a } from "m"`, "export var a = 1, b;", "export const a = 1",
    "export function f() {}", "export async function f() {}", "export class A extends B {}",
  ],
  variables: [
    "var a", "let a, b = 1;", "const a = 1, b = 2", "var [a, , b = 1, ...c] = d", "let [] = a", "let [,] = a", "let [a,] = b",
    "const { a, b: c, d = 1, e: f = 2, ...g } = h", T`let { [a]: b, "c": d, 1: e } = g`, "let { a: { b: [c] } } = d, {} = e",
    "var async, of, get, set, type, as, from", "let a = b\nlet c", "var $ = _, \u00e9 = a1$_",
  ],
  statements: [
    "{}", "{ a; { b } ; }", "if (a) b; else c", "if (a) { b } else if (c) d", "if (a) ; else ;", "for (;;) a",
    "for (a; b; c) ;", "for (var i = 0, j; i < n; i++) { continue }", "for (let i = 0;;) break", "for (const a of b) c",
    "for (var a in b) {}", "for (a of b) ;", "for (a.b in c) ;", "for ([a, b] of c) ;", "for ({ a, b: c = 1 } of d) ;",
    "for (let [a] of b) ;", "for (const { a } in b, c) ;", "for (a in b) for (c of d) ;",
    "async () => { for await (const a of b) ; for await (c of d) {} }", "for (x = (a in b); ;) ;", "for (let of = 1; ;) ;",
    "while (a) b", "while (a, b) { }", "do a; while (b)", "do { a } while (b); c", "do a; while (b) c", "switch (a) {}",
    "switch (a) { case 1: case b, c: d; break; default: e }", "try { a } catch { b }",
    "try { a } catch (b) { c } finally { d }", "try {} catch ({ a, b: [c] }) {}", "try {} finally {}",
    "a: b: for (;;) { break a; continue b }", "a: { break a }", "for (;;) { break\n}", "throw a", "throw a, b;", "debugger",
    "debugger;;", "function f() { return }", "function f() { return a, b; }", "function f() { return\na }", "a\n++b", "a;b\n;c",
    "async\nfunction f() {}",
  ],
  functions: [
    "function f() {}", "function f(a, b = 1, ...c) {}", "function f([a], { b } = {}, ...[c]) { d }", "function f(a,) {}",
    "function* f() { yield }", "function* f() { yield a; yield* b; yield\nc }", "async function f() { await a; await (b) }",
    "async function* f() { yield await a }", "(function () {})", "(function f() {})()", "(async function () {})",
    "a = function* g() {}", "(async function* () {})", "function f() { 'use strict'; return new.target }", "(a)", "() => {}",
    "a => a", "(a, b) => a + b", "({ a }) => a", "([a, b] = [], ...c) => {}", "(a = 1, { b: c = 2 }) => ({})", "async () => {}",
    "async a => await a", "async (a, b) => a", "a => b => c", "async => async", "async(a)", "async(a, b).c", "a = b => c, d",
    "(a) => { return a }", "f(a => a, b)", "(a,) => a", "() => [] ", "a ? (b) : c => d", "a ? (b) => c : d",
    "a ? b => ({ b }) : c => c.d", "a ? b => (c = b) : d => d", "a ? b = (c) : d => e", "a ? b += (c) : d => e",
    "a ? b => c = (d) : e => f", "a ? (b) => (c) => (d) : e => f", "a ? async b => (c) : d => e",
    "a ? b ? c : (d) : e => f", "a ? b ? c => (d) : (e) : f => g", "a ? b : c ? d => (e) : f => g", "a ? (b => (c)) : d => e",
    "a ? [b => (c)] : d => e", "a ? b => { (c) } : d => e", "for (let x = a ? b => (c) : d => e; ;) ;",
  ],
  classes: [
    "class A {}", "class A extends B {}", "class A extends f(a).b {}", "(class {})", "(class A extends null {})",
    "class A { ; ; a; }", "class A { a }", "class A { a = 1; b\nc = d }", "class A { static a = 1; static; static b }",
    T`class A { 'a' = 1; 2; [b] = c; "d"() {} }`, "class A { #a; #b = 1; static #c; #d() { return this.#a } }",
    "class A { constructor() {} }", "class A extends B { constructor(a) { super(a) } }",
    "class A { a() {} ; b(c) { return c } }", "class A { static a() {} static async b() {} }",
    "class A { get a() { return 1 } set a(b) {} }", "class A { static get a() {} static set #b(c) {} }",
    "class A { *a() {} async b() {} async *c() {} static *d() {} }", "class A { get; set; async; static; }",
    "class A { get() {} set() {} async() {} static() {} }", "class A { get = 1; async\nb() {} }",
    "class A { static { a; b } static {} }", "class A { #a; static b(c) { return #a in c } }", "class A { 'constructor'() {} }",
    "class A { [a]() {} get [b]() {} static [c] = 1 }", "class A extends B { m() { super.a; super[b]; super.c() } }",
    "class A extends (B, C) {}", "class A { get\na() {} }", "class A { a = 1; *b() {} }",
    "class A { 'a'; get 'b'() {} set 1(c) {} }",
  ],
  operators: [
    "a, b, c", "a = b = c", "a += b, c -= d, e *= f", "a /= b; a %= b; a **= b; a <<= b; a >>= b; a >>>= b",
    "a &= b; a |= b; a ^= b; a &&= b; a ||= b; a ??= b", "[a, b] = c", "[a = 1, , ...b] = c", "[a.b, c[d], [e]] = f",
    "({ a, b: c, d = 1, ...e } = f)", "({ a: [b = 1] = c } = d)", "[(a), (b.c)] = d", "(a) = b", "a ? b : c",
    "a ? b : c ? d : e", "a ? (b, c) : d", "a ?? b ?? c", "a || b && c || d", "a && b || c && d", "(a ?? b) || c",
    "a | b ^ c & d", "a == b != c === d !== e", "a < b > c <= d >= e", "a instanceof b in c", "a << b >> c >>> d",
    "a + b - c * d / e % f", "a ** b ** c", "(-a) ** b", "-a + +b - -c", "!a, ~b, typeof c, void d, delete e.f", "- - a",
    "++a, --b, a++, b--", "++a.b, c[d]--", "a\n++\nb", "a+ +b", "a - --b", "typeof typeof a", "!(a in b)", "a = b ? c : d, e",
    "for (let x = a ? b in c : d; ;) ;", "for (a ? b in c : d; ;) ;", "for (x = a ? b => c in d : e; ;) ;",
    "for (let x = a ? b ? c in d : e in f : g; ;) ;", "for (x = a ? b = c in d : e; ;) ;", "for (let x of a ? b in c : d) ;",
  ],
  chains: [
    "a.b", "a.b.c", "a[b]", "a[b, c][d]", "a()", "a(b, ...c, d,)", "a.b(c)[d].e()", "a.class.new", "new a", "new a()",
    "new a.b.c(d)", "new a()()", "new new a", "new new a()(b)", "new (a())()", "new a[b]().c", "new (class {})", "a?.b",
    "a?.b.c", "a?.[b]", "a?.(b)", "a?.b?.c(d)[e]", "(a?.b).c", "a.b?.c", "a?.b.c?.(d).e", "delete a?.b", "a?.1:b",
    "import.meta", "import.meta.a", T`import("m")`, T`import("m").a`, "import(a, b)", "a`b`", "a.b`c`.d", "a`b``c`", "a()`b`",
    "new a`b`", "async () => await a.b()", "a\n.b\n(c)", "a\n`b`",
  ],
  literals: [
    T`"a"`, T`'a'; "b"`, T`"\n\t\"\\\x41\u0042\u{43}"`, T`'\'"'`, "'a\\\nb'", T`"\0"`, T`"\ud83d\ude00"`, "1", "1.5", ".5",
    "1.", "1e3", "1E-3", "0x1f", "0o17", "0B101", "1_000", "9007199254740991", "9007199254740992", "1.0", "100e-2", "1n",
    "0x1fn", "1_0n", "null, true, false, this", "/a/", T`/[/]\//gi`, "/=a/", "a / b / c", "a = /b/.c", "1..a", "1.0.a", "1 .a",
    "``", "`a`", "`a${b}c${d}e`", "`${a}`", "`${`${a}`}`", "`\\n\\u0041`", "`a\nb`", "`$ ${a} $`", "`a\r\nb`", "a = `}`",
  ],
  collections: [
    "[]", "[a, b]", "[a,]", "[,]", "[, a]", "[a, , b]", "[a, ,]", "[...a, b, ...c]", "[a, (b, c)]", "({})", "({ a })",
    "({ a, b, })", "({ a: b })", T`({ "a": b, 1: c, [e]: f })`, "({ ...a, b })",
    "({ a() {}, *b() {}, async c() {}, async *d() {} })", "({ get a() { return 1 }, set a(b) {} })",
    "({ get: a, set: b, async: c })", "({ get, set, async, static: a })", "({ get() {}, set() {}, async() {} })",
    "({ 'a'() {}, 1() {}, [b]() {}, get [c]() { }, set 'd'(e) {} })", "({ if: a, class: b, await: c })", "({ a: { b: [{}] } })",
    "({ __proto__: a })", "({ async *[a]() {} })",
  ],
  "printed forms": [
    "(-1) ** 2; -(-1); ({}).a; (() => ({}))", "if (a) b; else c; do d(); while (e)",
    "class C extends D { m(C) { return (super.f)(a) + super.g?.(b) } static s() { super.x += 1 } }",
    "class C extends D { m(k) { return super[super.a](...arguments), super.f`t`, { g() { return super.h } } } }",
    "const { a, b = 1, inner: { c }, ...d } = {};", "const [ a, b = 1, [c], ...d ] = [];", "export default class Foo{}",
  ],
};

/** Plain texts that acorn alone reads right: TypeScript 4.8 has no attributes of imports, no texts as names of exports, no BigInts as
 * keys, no ill-formed escapes behind a tag, and takes a static method for the constructor. */
export const acornAlone = [
  T`import { a, "e-f" as g, } from "m"`, T`export { a as "b c" }; let a`, T`export { a, "b" as c, "d" } from "m";`,
  T`export * as "a" from "m"`, "let { 2n: a } = b", "class A { 3n; 4n() {} }", "({ 2n: a, 3n() {} })",
  "class A { static constructor() {} }", "a`\\u`", "a`\\u${b}\\xg`", T`import a from "m" with { type: "json" }`,
  T`import "m" with { "a": "b", c: 'd', };`, T`import "m" with {}`, T`export { a } from "m" with { type: "json" };`,
  T`export * from "m" with { type: "json" }`, T`export * as a from "m" with {}`,
];

export const typescript = {
  annotations: [
    "let x: number = f(1);", "let x: a.b.c", "const a: T = 1, b: U = 2", "let a!: T", "var [a, b]: T = c, { d }: U = e",
    "function f(a: T, b?: U, c: V = 1, ...d: W[]): X {}", "function f(this: T, a) {}", "(a: T): U => a", "async (a?: T) => {}",
    "<T>(a: T) => a", "<T,>(a: T): T => a", "function f<T, U extends T = V>(a: T) {}", "try {} catch (e: unknown) {}",
    "({ a<T>(b: T): U {}, get c(): T {}, set d(e: T) {} })", "function f({ a }: T, [b]: U = c) {}",
    "function f([a]?: T, { b }?: U): void;", "a ? (b): c => d : e", "a ? (b) : (c): d => e", "a ? b => (c): d => e : f",
    "a ? b => (c) => (d): e => f : g", "a ? b = (c): d => e : f", "a ? b ? (c) : d => e : (f): g => h",
    "a ? b ? c : (d): e => f : g", "a ? (b): c => (d) : e => f", "a ? async (b): c => d : e", "a ? (b: c) => (d): e => f : g",
    "for (let x = a ? b => (c): d => e in f : g; ;) ;", "function f(asserts: T): asserts is U {}", "function f(is: T): asserts is {}",
    "type A = (asserts: T) => asserts is U", "function f(asserts): asserts asserts is T {}",
    "function f(a): asserts a {}",
    "function f(a): asserts a is T {}", "function f(this): this is T {}", "function f(a): a is T {}",
    "a = async <T>(b: T) => b", "function f(readonly: T, type?: U) {}",
  ],
  wrappers: [
    "a as T", "a as const", "a as T as U", "<T>a", "<const>a", "<T><U>a.b", "a!", "a!.b![c]!()", "a!\n!b", "(a as T) + 1",
    "a < b as T", "a as T && b", "a?.b!.c", "a?.b!()!.c", "(a as T).b", "(<any>a).b = c", "a as\nT", "a\nas\nT", "-<T>a",
    "f(a as T, <U>b)", "a = b as T, c", "`${a as T}`", "[a as T, b!] = c", "a ? b as T : c", "x as any as T[]", "a! + b!",
    "a as number + 1", "1 + a as T + 2", "a as T * b / c % d", "a as T + b * c - d", "a as number << b + c", "a as T >> b >>> c",
    "a as T ** b ** c", "-a as T ** b", "a as T * b as U + c", "a as const + 1", "a == b as T + c < d", "a < b as T * c > d",
    "a as T - b && c as U * d", "a as T\n+ b", "for (let x = a as T + b; ;) ;", "a ? b as T + c : d", "a = b as T + c, d",
    "a!++", "new a!.b()", "a?.b!.c; (<any>a).b; f<T>(x) ; a < b > c; f<T> || g",
  ],
  "type arguments": [
    "f<T>(a)", "f<T, U>()", "a.b<T>(c)", "new A<T>()", "new A<T>", "new a.b<T>(c)", "f<T>`a`", "a?.b<T>(c)", "a?.<T>(b)",
    "f<T>;", "a = f<T>", "f<A<B<C>>>(a)", "f<T> ?? a", "[f<T>, g<U>]", "a < b > c", "a<b>>c", "f(a < b, c > d)",
    "f(a<b, c>(d))", "a<b>\nc", "class A extends B<T> {}", "class A<T> extends B.C<T> {}", "(f<T>)", "f<typeof a>()",
    "a < b || c > d", "f<T>?.()", "a.b<T>?.(c)", "a?.b<T>?.(c).d", "f<T>?.[a]", "f<T>?.<U>(a)", "f<T>\n?.()",
  ],
  types: [
    "type A = B", "type A<T> = T", "type A = B | C & D", "type A = | B | C", "type A = & B", "type A = B[][]",
    "type A = B['c'][D]", "type A = keyof B", "type A = unique symbol", "type A = readonly B[]", "type A = keyof typeof a.b",
    "type A = typeof a<B>", "type A = typeof import('m')", "type A = import('m')", "type A = import('m').B<C>",
    "type A = [B, C?, ...D[]]", "type A = [a: B, c?: D, ...e: F[]]", "type A = []", "type A = {}", "type A = (B)",
    "type A = () => void", "type A = (a: B, c?: D, ...e: F[]) => a is G", "type A = new (a: B) => C",
    "type A = abstract new () => B", "type A = <T>(a: T) => T", "type A = B extends C ? D : E",
    "type A = B extends infer C extends D ? C : E", "type A = B extends infer C\nextends D ? C : E",
    "type A = B extends infer C extends D | E ? C : F",
    "type A = B extends (infer C extends D ? E : F) ? G : H", "type A = B extends infer C ? D : E",
    "type A = B extends infer C extends () => D ? E : F", "type A = infer B extends C ? D : E",
    "type A = B extends (infer C)[] ? C : never", "type A = B extends [infer C extends D] ? C : never",
    "type A = { a: B; c?: D, readonly e: F\n g(): H; new (i): J; (k): L; [m: string]: N }", "type A = { [B in C]: D }",
    "type A = { readonly [B in C]?: D }", "type A = { -readonly [B in keyof C as D]-?: E; }",
    "type A = { get a(): B; set a(c: B) }", "type A = { get: B; set(): C; readonly: D; readonly readonly: E }",
    "type A = `a${B}c${D}`", "type A = ``", T`type A = "a" | 'b' | 1 | -1 | 1n | -2n | true | false | null | void`,
    "type A = this", "type A = B.asserts", "type A = B\ntype C = D", "type\nA = B",
    "type A = B extends C ? D extends E ? F : G : H", "type A = (B | C)[]", "type A = (a?: B) => C | D",
    "type A = { a(b: C): this is D, e: () => F }", "type A = { 'a': B; 1: C; [d]: E; }", "type A = new <T>() => B",
    "type A = { <T>(a: T): U }", "type A = typeof this.a", "let k: { [x: string]: (a) => void }[] = <any>f(1)!;",
    "let a: (new () => B) | C",
  ],
  interfaces: [
    "interface A {}", "interface A<T> extends B, C.D<E> { a: F }", "export interface User { id: number; name?: string }",
    "export default interface A {}", "declare interface A {}", "interface f { g<T>(this: f, a?: T): asserts a is T }",
  ],
  enums: [
    "enum E {}", "enum E { A, B = 4, C }", T`enum E { A = 1, "b", 'c' = 2, ['d'] = 3, }`, "const enum E { A = 1 } f(E.A);",
    "declare enum E { A }", "declare const enum E { A }", "export enum E { A = B | C }", "export const enum E {}",
    "enum\nE { A }", "enum E { A = 9007199254740991, B }", T`enum E { A = -0, B = "t", C, D = 1 / A }`,
    "enum E { A } function g(E) { return E.A } g(o);", "enum E { A } export enum E { B }", "enum E { if, class }",
    "enum E { A = 1 } for (E.A of xs) f(E.A);", "enum E { A } enum E { B = A }", "function f(NaN) { enum E { A = NaN, B } }",
  ],
  namespaces: [
    "namespace A {}", "namespace A.B.C { let a; export let b }", "module A {}", T`module "m" {}`, T`declare module "m";`,
    T`declare module "m" { export default a }`, "declare global { let a }", "declare global\n{ let a }",
    "declare namespace A { let b; function f(); }",
    "export namespace A.B {}", "namespace N { export let x = 1; ({ x } = o); x(); }",
    "namespace NS { export const foo = init, { bar: baz = init } = init; export function a() {} export let b = init; }",
    T`namespace N { import x = require("m"); x(); }`, "namespace N { export { }; let a = 1; }", T`module "q" { let a = 1; }`,
    "namespace A { namespace B { } export declare const c: D }", "namespace\nA\n{}",
  ],
  ambient: [
    "declare let a: T", "declare const a: T, b;", "declare var a", "declare function f(a: T): U",
    "declare function f(): void;\nf()", "declare class A { a; b(): C; constructor(d) }", "declare abstract class A {}",
    "declare type A = B", "declare\nlet a", "export declare const a: T;", "declare async function f()",
    "{ declare const f: any; f(); } let f = 1;",
  ],
  "type imports": [
    T`import type A from "m"`, T`import type { A, B as C } from "m"`, T`import type * as A from "m"`,
    T`import { type A, type B as C } from "m"`, T`import { type as as } from "m"`, T`import { type as } from "m"`,
    T`import { type as as as } from "m"`, T`import { A, type B } from "m"; A();`, T`import type, { a } from "m"`,
    T`export type { A } from "m"`, "export type { A, B as C }", T`export { type A, type B as C } from "m"`,
    T`export { type as as } from "m"`, "export { type as as as }", "export { type }", "export { type, a }",
    T`import a = require("m")`, "import a = b.c.d", "import a = b", "export import a = b.c", T`import type a = require("m")`,
    T`import type = require("m")`, "export = a", "export = { a, b };", "export as namespace A",
    T`import fs = require("fs"); fs.f(); export = fs;`, T`import "m"; import {} from "n"; import { type T } from "o"`,
    T`import { A } from "m"; let x: A;`, T`export const require = 1; import x = require("m"); x()`, "export type A = B",
    T`import type from "m"`,
  ],
  "typed classes": [
    "abstract class A { abstract a(); abstract b: C; d() {} }", "export abstract class A {}",
    "export default abstract class A {}", "class A<T> extends B<T> implements C, D.E<F> {}", "class A implements B {}",
    "class A { a: T; b?: U; c!: V; d: W = 1; readonly e }",
    "class A { public a; private b; protected c; public static d; static readonly e = 1; declare f; override g() {} }",
    "class A { a(): T; a(b?): T {} }", "class A { a?(): T; b?: U; 'c'?: V; #d?: W }",
    "class A { constructor(public a, private readonly b: T = 1, protected c?, readonly d?: U) {} }",
    "class A { constructor(a); constructor(b?) {} }", "class A { private constructor() {} }",
    "class A { get a(): T { } set a(b: T) { } abstract get c(); }",
    "class A { [a: string]: T; readonly [b: number]: U; static [c: string]: V }",
    "class A { a<T>(b: T): U {} async *c<V>(): W {} }", "class A { declare; readonly; public; private; abstract; override; }",
    "class A { declare() {} readonly = 1; public?: T; override!: U }",
    "class A { private async a() {} public static async *b() {} protected get c() { return 1 } }",
    "class A { static { let a: T } }", "class A { readonly #a: T }", "(class<T> {})", "(class A<T> implements B {})",
    "class A { private\na }", "class B extends A { constructor(override readonly a: T) { super() } }",
    "class B extends A { constructor(public p: T) { if (c) super(); } }",
    "class B extends A { q = 1; constructor(public p: T) { super(); } }",
    "const x = 1; class A { y = x; constructor(public x: number) {} }",
    "class A { [k()] = new.target; constructor(public x) {} }", "f(() => class { [k()] = 1; constructor(public x) {} });",
    "class A { constructor(public override, readonly) {} }", T`class A { 'constructor'(); "constructor"() {} }`,
  ],
  overloads: [
    "function f(): T; function f(a?): T {}", "function f()\nfunction f() {}",
    "export function f(a: T): U; export default function (b): V;",
  ],
  "whole modules": [
    T`type T = a.b; const s: T = "x" as T; log.info(s, 1,);`,
    "interface f { g<T>(this: f, a?: T): asserts a is T } let k: { [x: string]: (a) => void }[] = <any>f(1)!;",
    T`enum E# { A = #, B }
class C# { constructor(public v: number) {} }
export const x# = (a: E#) => new C#(a + E#.B);
`.replaceAll("#", "1"),
    T`import { Logger, type Level } from "./logger";
import type { Store } from "./store";
import { clock } from "./clock";
export interface User { id: number; name?: string }
export enum Role { Guest, Member = 4, Admin }
type Key = string | number;
const cache: Map<Key, User> = new Map<Key, User>();
export class UserService {
    private hits: number = 0;
    static readonly limit = 10 as const;
    constructor(private readonly store: Store, public log: Logger = new Logger("users")) {
        this.log.info(${"`start ${clock()}`"}); // first line
    }
    find(id: number): User | undefined;
    find(id: Key): User | undefined {
        const hit = cache.get(id);
        if (hit) {
            this.hits++;
            return hit;
        }
        const user = this.store.load(id)!;
        cache.set(id, user as User);
        return user;
    }
    role(user?: User): Role {
        return user?.name === "root" ? Role.Admin : Role.Guest;
    }
}
export const names = <T extends User>(list: T[]): string[] => list.map((u) => u.name ?? "?");
declare const DEBUG: boolean;
if (DEBUG) console.log(Role[Role.Member]);
`,
  ],
};

/** Forms that TypeScript has had since version 4.9 or 5.0, and what has the same tree but for one kind in the text's older form. */
export const newer = [
  { text: "a satisfies T", older: "a        as T", change: ["TsAsExpr", "TsSatisfiesExpr"] },
  { text: "({ a }) satisfies T && b", older: "({ a })        as T && b", change: ["TsAsExpr", "TsSatisfiesExpr"] },
  { text: "function f<const T>(a: T) {}", older: "function f<      T>(a: T) {}", change: ["", ""] },
  { text: "class A<const T, in out U> {}", older: "class A<      T, in out U> {}", change: ["", ""] },
];

/** Texts that are refused, each with its place as the rules on places and levels give it by hand. */
export const refused = [
  ["plain", 40, "let x: number = 1", "Syntax at 5"],
  ["plain", 40, "a /* b", "Syntax at 2"],
  ["plain", 40, '"abc', "Syntax at 0"],
  ["plain", 40, "let = 1;", "Syntax at 4"],
  ["plain", 40, "if (a b", "Syntax at 6"],
  ["plain", 40, "a b", "Syntax at 2"],
  ["plain", 40, "f(1, 2", "Syntax at 6"],
  ["plain", 40, "x = {a: 1, b: }", "Syntax at 14"],
  ["plain", 40, "for (let x of y, z) {}", "Syntax at 15"],
  ["plain", 40, "class A { constructor( }", "Syntax at 23"],
  ["plain", 40, "a ? b", "Syntax at 5"],
  ["plain", 40, "`a${b`", "Syntax at 5"],
  ["plain", 40, 'import { a as } from "m"', "Syntax at 14"],
  ["plain", 40, "await", "Syntax at 5"],
  ["plain", 40, "a ?? b || c", "Syntax at 7"],
  ["plain", 40, "-a ** b", "Syntax at 3"],
  ["plain", 40, "async () \n => a", "Syntax at 11"],
  ["plain", 40, "let x = 1 2;", "Syntax at 10"],
  ["plain", 40, "1a", "Syntax at 0"],
  ["plain", 40, "0x", "Syntax at 0"],
  ["plain", 40, "@", "Syntax at 0"],
  ["typescript", 40, "let x: number = ;", "Syntax at 16"],
  ["typescript", 40, "enum E { A =", "Syntax at 12"],
  ["typescript", 40, "type T = ;", "Syntax at 9"],
  ["typescript", 40, "let x: [a, b = 1", "Syntax at 13"],
  ["typescript", 40, "class A { private [x: string] }", "Syntax at 30"],
  ["typescript", 40, "enum E { A, B C }", "Syntax at 14"],
  ["plain", 9, "((((((((((", "TooDeep at 8"],
  ["plain", 4, "a.b.c.d", "TooDeep at 5"],
  ["plain", 4, "- - - a", "TooDeep at 4"],
  ["plain", 4, "a + b + c + d", "TooDeep at 10"],
  ["plain", 3, "{{{}}}", "TooDeep at 3"],
  ["plain", 4, "new new new a", "TooDeep at 8"],
  ["plain", 4, "a ** b ** c ** d", "TooDeep at 12"],
  ["plain", 3, "a && b || c", "TooDeep at 7"],
  ["typescript", 6, "type T = a[][]", "TooDeep at 13"],
  ["typescript", 2, "declare declare let x", "TooDeep at 8"],
];

// Expressions, and places in which each is put for `#`: where acorn refuses one there, it is passed over.

const T = String.raw;

export const expressions = [
  "a", "1", "1.5", "1n", "0x1f", "1_000", "1e999", T`"s"`, T`'q\'\u{41}'`, "`t`", "`t${a}u${b}`", T`/[/]\/x/gu`, "null", "true", "this", "[]", "[a, , ...b]",
  "[, ]", "{}", "{ a, b: c, [d]: e, ...f }", "{ get a() { return 1 }, set a(b) {}, *c() {}, async d() {}, async *e() {} }", "function () {}",
  "function f(a, b = 1, { c }, ...d) {}", "async function () { await a }", "function* () { yield }", "class {}", "class A extends B { #a = 1; static #b() { #a in c } }",
  "class { static { a } static b = 1; get c() {} 'd'() {} 1 = 2 }", "() => {}", "a => b", "async a => await b", "(a, { b } = {}, ...c) => ({})", "a => ({}).b",
  "a => function () {}", "a => b, c", "a, b", "a = b", "a = b = c", "[a, b.c, ...d] = e", "{ a, b: c.d, ...e } = f", "{ a = 1 } = b", "a += b", "a ||= b",
  "a **= b", "a ? b : c", "a ? b, c : d => e", "a ?? b", "a || b", "a && b", "a | b", "a ^ b", "a & b", "a == b", "a !== b", "a < b", "a in b", "a instanceof b",
  "a << b", "a >>> b", "a + b", "a - b", "a * b", "a % b", "a ** b", "-a", "+a", "!a", "~a", "typeof a", "void 0", "delete a.b", "- -a", "+ +a", "- --a",
  "++a", "--a.b", "a++", "a--", "a++ + ++b", "a-- - --b", "await a", "yield", "yield a", "yield* a", "new A", "new A()", "new A(b, ...c)", "new A.B()", "new (a())()",
  "new (a().b)", "new new A()()", "new (import('m'))", "new.target", "import.meta", "import.meta.a", "import('m')", "a()", "a(b, ...c)", "a.b", "a[b]", "a.#b", "a?.b",
  "a?.b.c", "(a?.b).c", "a?.[b]?.(c)", "(a?.b)()", "a?.().b", "a`t`", "a.b`t${c}`", "super.a", "super[a]", "async", "async()", "async.a", "let", "of", "get", "(a)",
  "((a, b))", "(a = b)", "(a => b)()", "(function () {})()", "(class {}).a", "({}).a", "1..a", "(1).a", "1.5.a", "1n.a", "0x1.a", "(-a) ** b", "(await a) ** b",
  "(a ?? b) || c", "a ?? (b || c)", "(a && b) ?? c", "(a || b) && c", "a && (b || c)", "a - (b - c)", "a ** b ** c", "(a ** b) ** c", "(a, b) ? c : d", "(a ? b : c) ? d : e",
  "!(a in b)", "!(a instanceof b)", "typeof (a + b)", "-(a + b)", "-(-a)", "(-1).a", "a < b > c", "a /b/ c", "a-- > b", "`${`${a}`}`", T`"<!--"`, "a < !--b",
  "function () {}.a", "function () {}()", "class {}.a", "async function () {}()",
];

export const places = [
  "#", "(#)", "x = #", "x = (#)", "var x = #", "f(#)", "f(...(#))", "[#]", "[...#]", "({ x: # })", "({ [#]: 1 })", "({ ...# })", "() => #", "() => (#)", "(#).x", "(#)[x]",
  "x[#]", "(#)()", "(#)?.x", "(#)`t`", "new (#)", "new (#)()", "new (#).x", "(#)++", "++(#)", "-(#)", "- #", "+(#)", "!(#)", "!#", "typeof #", "delete (#)", "await #", "await (#)",
  "yield #", "yield* #", "(#) + x", "x + (#)", "# + x", "x + #", "x - #", "x - (#)", "x * (#)", "(#) ** x", "x ** #", "x ** (#)", "(#) ?? x", "x ?? (#)", "(#) || x", "x || #",
  "(#) && x", "x && (#)", "# ? x : y", "(#) ? x : y", "x ? # : y", "x ? y : #", "(#), x", "x, #", "(#) in x", "x in (#)", "(#) < x", "x instanceof (#)", "if (#) x; else y", "while (#) x",
  "do x; while (#)", "for (#; ;) x", "for ((#); ;) x", "for (var x = (#); ;) y", "for (; #; #) x", "for (x in #) y", "for (x of #) y", "for ((#).x of y) z", "for (let x of (#)) y",
  "switch (#) { case #: x }", "throw #", "function f() { return # }", "function f(x = #) {}", "function* f() { # }", "async function f() { # }", "class A extends (#) {}", "class A { [#] = 1 }",
  "class A { x = #; y }", "class A { static { # } }", "class A { m() { # } }", "export default #", "export default (#)", "export const x = #", "`${#}`", "({ x = # } = y)", "[x = #] = y",
  "let { x = # } = y", "let { [#]: x } = y", "label: #", "if (x) #; else y", "if (x) { if (y) #; } else z", "{ # }", "{ #\n}", "x\n#", "#\nx", "({ m() { return # } })", "async () => #", "async () => { # }",
];

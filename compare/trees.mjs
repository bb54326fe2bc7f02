// Modules as trees, in the words of crates/ecma_runs/proofs/Trees.antt. The parser is the one that comes with node:
// needs --expose-internals.
import { createRequire } from "node:module";
import { bytes as codes } from "./host.mjs";

const { parse } = createRequire(import.meta.url)("internal/deps/acorn/acorn/dist/acorn");

const bytes = (text) => `(${codes(text)})`;
const inner = (text) => (text.includes(" ") ? `(${text})` : text);
const trees = (items) => (items.length === 0 ? "End" : `(${[...items, "End"].join(" ▸ ")})`);
const tree = (kind, ...below) => `tree ${inner(kind)} ${trees(below)}`;
const list = (items) => `list ${trees(items)}`;

const binaries = {
  "==": "EqEq", "!=": "NotEq", "===": "EqEqEq", "!==": "NotEqEq", "<": "Lt", "<=": "LtEq", ">": "Gt", ">=": "GtEq",
  "<<": "LShift", ">>": "RShift", ">>>": "ZeroFillRShift", "+": "Add", "-": "Sub", "*": "Mul", "/": "Div", "%": "Mod",
  "|": "BitOr", "^": "BitXor", "&": "BitAnd", "||": "LogicalOr", "&&": "LogicalAnd", in: "In", instanceof: "InstanceOf",
  "**": "Exp", "??": "NullishCoalescing",
};
const assigns = {
  "+=": "AddAssign", "-=": "SubAssign", "*=": "MulAssign", "/=": "DivAssign", "%=": "ModAssign", "<<=": "LShiftAssign",
  ">>=": "RShiftAssign", ">>>=": "ZeroFillRShiftAssign", "|=": "BitOrAssign", "^=": "BitXorAssign", "&=": "BitAndAssign",
  "**=": "ExpAssign", "&&=": "AndAssign", "||=": "OrAssign", "??=": "NullishAssign",
};
const unaries = { "-": "Minus", "+": "Plus", "!": "Bang", "~": "Tilde", typeof: "TypeOf", void: "Void", delete: "Delete" };
const words = { var: "Var", let: "Let", const: "Const" };

/** What stands for types in the sources of facts: `$as[e]` is `e as T`, and so on. */
const wrappers = {
  $as: (e) => tree("kind.TsAsExpr", e, "type'"),
  $assert: (e) => tree("kind.TsTypeAssertion", e, "type'"),
  $const: (e) => tree("kind.TsConstAssertion", e),
  $nonnull: (e) => tree("kind.TsNonNullExpr", e),
  $instantiated: (e) => tree("kind.TsInstantiation", e, "type'"),
  $satisfies: (e) => tree("kind.TsSatisfiesExpr", e, "type'"),
};

/** Whether a link stands in an optional chain. */
const isOptional = (n) =>
  (n.type === "MemberExpression" && (n.optional || isOptional(n.object))) ||
  (n.type === "CallExpression" && (n.optional || isOptional(n.callee)));

function member(n, object) {
  if (n.object.type === "Identifier" && n.object.name in wrappers) return wrappers[n.object.name](expression(n.property));
  if (n.object.type === "Super") {
    return n.computed ? tree("kind.SuperPropExpr", "super'", name(n.property, true)) : `super_member ${bytes(n.property.name)}`;
  }
  if (n.computed || n.property.type === "PrivateIdentifier") return tree("kind.MemberExpr", object, name(n.property, n.computed));
  return `member ${inner(object)} ${bytes(n.property.name)}`;
}

function link(n) {
  if (!isOptional(n)) return expression(n);
  const optional = `kind.OptChainExpr ${n.optional}`;
  if (n.type === "MemberExpression") return tree(optional, member(n, link(n.object)));
  return tree(optional, tree("kind.OptCall", link(n.callee), list(n.arguments.map(argument)), "absent"));
}

/** The key of a member or a property. */
function name(n, computed) {
  if (computed) return `computed ${inner(expression(n))}`;
  if (n.type === "Identifier") return `key ${bytes(n.name)}`;
  if (n.type === "PrivateIdentifier") return tree(`kind.PrivateName ${bytes(n.name)}`);
  return expression(n);
}

const argument = (n) => (n.type === "SpreadElement" ? tree("kind.SpreadElement", expression(n.argument)) : expression(n));

function property(n) {
  if (n.type === "SpreadElement") return argument(n);
  if (n.shorthand) return ident(n.key.name);
  const key = name(n.key, n.computed);
  if (n.kind === "get") return tree("kind.GetterProp", key, "absent", block(n.value.body));
  if (n.kind === "set") return tree("kind.SetterProp", key, "absent", pattern(n.value.params[0]), block(n.value.body));
  if (n.method) return tree("kind.MethodProp", key, functionNode(n.value));
  return `property ${inner(key)} ${inner(expression(n.value))}`;
}

const block = (n) => `block ${trees(n.body.map(statement))}`;

function functionNode(n) {
  const parameters = trees(n.params.map((p) => `parameter ${inner(pattern(p))}`));
  if (n.async || n.generator) return tree(`kind.Function ${n.generator} ${n.async}`, `list ${parameters}`, block(n.body), "absent", "absent");
  return `function ${parameters} ${trees(n.body.body.map(statement))}`;
}

function classMember(n) {
  if (n.type === "PropertyDefinition" && Object.hasOwn(members, n.key.name)) return members[n.key.name]();
  if (n.type === "StaticBlock") return tree("kind.StaticBlock", `block ${trees(n.body.map(statement))}`);
  const is_private = n.key.type === "PrivateIdentifier";
  if (n.type === "PropertyDefinition") {
    const value = n.value ? expression(n.value) : "absent";
    if (is_private) return tree(`kind.PrivateProp (modifiers ${n.static}) false false false`, name(n.key, false), value, "absent");
    return `field ${n.static} ${inner(name(n.key, n.computed))} ${inner(value)}`;
  }
  if (n.kind === "constructor") {
    return `constructor' ${trees(n.value.params.map((p) => `parameter ${inner(pattern(p))}`))} ${trees(n.value.body.body.map(statement))}`;
  }
  const sort = { method: "method.Method", get: "method.Getter", set: "method.Setter" }[n.kind];
  if (is_private) return tree(`kind.PrivateMethod ${sort} (modifiers ${n.static})`, name(n.key, false), functionNode(n.value));
  if (n.value.async || n.value.generator) return tree(`kind.ClassMethod ${sort} (modifiers ${n.static})`, name(n.key, n.computed), functionNode(n.value));
  return `class_method ${sort} ${n.static} ${inner(name(n.key, n.computed))} ${functionNode(n.value).slice("function ".length)}`;
}

const classNode = (n) => `${n.superClass ? inner(expression(n.superClass)) : "absent"} ${trees(n.body.body.map(classMember))}`;

/** A name. `$1_x` stands for `x` in the context 1. */
function ident(text) {
  const [, context, sym] = /^\$(\d+)_(.*)$/.exec(text) ?? [];
  return context ? tree(`kind.Ident ${bytes(sym)} ${context} false`) : `ident ${bytes(text)}`;
}

/** A pattern, declared or assigned. */
function pattern(n) {
  if (n.type === "Identifier" && /^\$\d/.test(n.name)) return tree("kind.BindingIdent", ident(n.name), "absent");
  if (n.type === "Identifier" && n.name.startsWith("$typed_")) return tree("kind.BindingIdent", `ident ${bytes(n.name.slice("$typed_".length))}`, tree("kind.TsTypeAnn", "type'"));
  if (n.type === "Identifier") return `binding ${bytes(n.name === "$this" ? "this" : n.name)}`;
  if (n.type === "AssignmentPattern") return tree("kind.AssignPat", pattern(n.left), expression(n.right));
  if (n.type === "ObjectPattern") return tree("kind.ObjectPat false", list(n.properties.map(patternProperty)), "absent");
  if (n.type === "ArrayPattern") return tree("kind.ArrayPat false", list(n.elements.map((e) => (e ? pattern(e) : "absent"))), "absent");
  if (n.type === "RestElement") return tree("kind.RestPat", pattern(n.argument), "absent");
  return expression(n);
}

function patternProperty(n) {
  if (n.type === "RestElement") return pattern(n);
  if (n.shorthand) {
    const value = n.value.type === "AssignmentPattern" ? expression(n.value.right) : "absent";
    return tree("kind.AssignPatProp", `binding ${bytes(n.key.name)}`, value);
  }
  return tree("kind.KeyValuePatProp", name(n.key, n.computed), pattern(n.value));
}

/** The target of an assignment. */
const target = (n) => (n.type === "Identifier" ? ident(n.name) : n.type.endsWith("Pattern") ? pattern(n) : expression(n));

function number(n) {
  if (!Number.isSafeInteger(n)) return tree("kind.Number None None");
  return `whole ${n}`;
}

function literal(n) {
  if (n.regex) return tree(`kind.Regex ${bytes(n.regex.pattern)} ${bytes(n.regex.flags)}`);
  if (n.bigint) return tree(`kind.BigInt ${bytes(n.bigint)} None`);
  if (n.value === null) return "null";
  if (typeof n.value === "boolean") return `truth ${n.value}`;
  if (typeof n.value === "string") return `string ${bytes(n.value)}`;
  return number(n.value);
}

const part = (n) => tree(`kind.TplElement ${bytes(n.value.raw)} ${n.value.cooked === null ? "None" : `(Some ${bytes(n.value.cooked)})`} ${n.tail}`);
const template = (n) => tree("kind.Tpl", list(n.expressions.map(expression)), list(n.quasis.map(part)));

function functionExpression(n) {
  if (n.async || n.generator) return tree("kind.FnExpr", n.id ? `ident ${bytes(n.id.name)}` : "absent", functionNode(n));
  return `function_expression ${n.id ? `(ident ${bytes(n.id.name)})` : "absent"} ${functionNode(n).slice("function ".length)}`;
}

function expression(n) {
  switch (n.type) {
    case "Identifier": return ident(n.name);
    case "Literal": return literal(n);
    case "TemplateLiteral": return template(n);
    case "TaggedTemplateExpression": return tree("kind.TaggedTpl", expression(n.tag), "absent", template(n.quasi));
    case "ThisExpression": return "this'";
    case "Super": return "super'";
    case "ArrayExpression": return `array ${trees(n.elements.map((e) => (e ? argument(e) : "absent")))}`;
    case "ObjectExpression": return `object ${trees(n.properties.map(property))}`;
    case "FunctionExpression": return functionExpression(n);
    case "ArrowFunctionExpression": {
      const body = n.body.type === "BlockStatement" ? block(n.body) : expression(n.body);
      if (n.async) return tree("kind.ArrowExpr true false", list(n.params.map(pattern)), body, "absent", "absent");
      return `arrow ${trees(n.params.map(pattern))} ${inner(body)}`;
    }
    case "ClassExpression": return tree("kind.ClassExpr", n.id ? `ident ${bytes(n.id.name)}` : "absent", `class' ${classNode(n)}`);
    case "UnaryExpression": return `unary unary.${unaries[n.operator]} ${inner(expression(n.argument))}`;
    case "UpdateExpression": return tree(`kind.UpdateExpr update.${n.operator === "++" ? "PlusPlus" : "MinusMinus"} ${n.prefix}`, expression(n.argument));
    case "BinaryExpression":
    case "LogicalExpression": return `binary binary.${binaries[n.operator]} ${inner(expression(n.left))} ${inner(expression(n.right))}`;
    case "AssignmentExpression":
      if (n.operator === "=") return `assign ${inner(target(n.left))} ${inner(expression(n.right))}`;
      return tree(`kind.AssignExpr assign.${assigns[n.operator]}`, target(n.left), expression(n.right));
    case "ConditionalExpression": return tree("kind.CondExpr", expression(n.test), expression(n.consequent), expression(n.alternate));
    case "SequenceExpression": return tree("kind.SeqExpr", ...n.expressions.map(expression));
    case "ChainExpression": return link(n.expression);
    case "MemberExpression": return member(n, n.object.type === "Super" ? "super'" : expression(n.object));
    case "CallExpression":
      return `call ${inner(expression(n.callee))} ${trees(n.arguments.map(argument))}`;
    case "NewExpression":
      if (n.end === n.callee.end) return tree("kind.NewExpr", expression(n.callee), "absent", "absent");
      return `new' ${inner(expression(n.callee))} ${trees(n.arguments.map(argument))}`;
    case "MetaProperty": return tree(`kind.MetaPropExpr ${n.meta.name === "new" ? "NewTarget" : "ImportMeta"}`);
    case "ParenthesizedExpression": return `parens ${inner(expression(n.expression))}`;
    case "AwaitExpression": return tree("kind.AwaitExpr", expression(n.argument));
    case "ImportExpression": return tree("kind.CallExpr", tree("kind.Import"), list([expression(n.source)]), "absent");
    default: throw new Error(`no tree for ${n.type}`);
  }
}

/** What stands behind `import a =`: a dotted name, or `require("m")`, for which `$require("m")` stands. */
function dotted(n) {
  if (n.type === "CallExpression") return tree("kind.TsExternalModuleRef", expression(n.arguments[0]));
  return n.type === "Identifier" ? `ident ${bytes(n.name)}` : tree("kind.TsQualifiedName", dotted(n.object), `key ${bytes(n.property.name)}`);
}

/** `const $import_a = b.c` stands for `import a = b.c`, and behind `export` for `export import a = b.c`. */
const importsAs = (n) => n?.type === "VariableDeclaration" && n.declarations[0].id.name?.startsWith("$import_");

function importEquals(n, isExport) {
  const { id, init } = n.declarations[0];
  return tree(`kind.TsImportEqualsDecl ${isExport} false`, `ident ${bytes(id.name.slice("$import_".length))}`, dotted(init));
}

function declaration(n) {
  if (importsAs(n)) return importEquals(n, false);
  const word = `${words[n.kind]}`;
  if (n.declarations.length === 1) {
    const { id, init } = n.declarations[0];
    const value = init ? inner(expression(init)) : "absent";
    if (id.type === "Identifier" && !/^\$(typed_|\d)/.test(id.name)) return `declare ${word} ${bytes(id.name)} ${value}`;
    return `declare_pattern ${word} ${inner(pattern(id))} ${value}`;
  }
  const declarators = n.declarations.map((d) => tree("kind.VarDeclarator false", pattern(d.id), d.init ? expression(d.init) : "absent"));
  return tree(`kind.VarDecl ${word} false`, list(declarators));
}

const label = (n) => (n ? `ident ${bytes(n.name)}` : "absent");
const head = (n) => (n.type === "VariableDeclaration" ? declaration(n) : pattern(n));

function specifier(n) {
  const local = `ident ${bytes(n.local.name)}`;
  if (n.type === "ImportDefaultSpecifier") return tree("kind.ImportDefaultSpecifier", local);
  if (n.type === "ImportNamespaceSpecifier") return tree("kind.ImportStarAsSpecifier", local);
  // `$type_x` stands for `type x`
  if (n.local.name.startsWith("$type_")) return tree("kind.ImportNamedSpecifier true", `ident ${bytes(n.local.name.slice("$type_".length))}`, "absent");
  const imported = n.imported.start === n.local.start ? "absent" : n.imported.type === "Literal" ? expression(n.imported) : `ident ${bytes(n.imported.name)}`;
  return tree("kind.ImportNamedSpecifier false", local, imported);
}

/** The name of an export. */
const exportName = (n) => (n.type === "Literal" ? expression(n) : ident(n.name));
const exportSpecifier = (n) => tree("kind.ExportNamedSpecifier false", exportName(n.local), n.exported.start === n.local.start ? "absent" : exportName(n.exported));

/** What stands for declarations of types, for what is ambient and for what no parser takes in the sources of facts: `$interface.I;` and so on. */
const declarations = {
  $interface: (id) => tree("kind.TsInterfaceDecl false", id),
  $alias: (id) => tree("kind.TsTypeAliasDecl false", id),
  $ambient: (id) => tree("kind.VarDecl Let true", list([tree("kind.VarDeclarator false", tree("kind.BindingIdent", id, "absent"), "absent")])),
  $ambient_function: (id) => tree("kind.FnDecl true", id, tree("kind.Function false false", "list End", "absent", "absent", "absent")),
  $ambient_class: (id) => tree("kind.ClassDecl true", id, "class' absent End"),
  $overload: (id) => tree("kind.FnDecl false", id, tree("kind.Function false false", "list End", "absent", "absent", "absent")),
  $type_import: (id) => tree("kind.ImportDecl true", list([tree("kind.ImportNamedSpecifier false", id, "absent")]), `string ${bytes("m")}`, "absent"),
  $ambient_enum: (id) => tree("kind.TsEnumDecl true false", id, "list End"),
  $enum: (id) => tree("kind.TsEnumDecl false false", id, "list End"),
  $type_namespace: (id) => tree("kind.TsModuleDecl false false", id, tree("kind.TsModuleBlock", list([tree("kind.TsInterfaceDecl false", id)]))),
  $exported_type: (id) => tree("kind.ExportDecl", tree("kind.TsInterfaceDecl false", id)),
  $type_import_equals: (id) => tree("kind.TsImportEqualsDecl false true", id, id),
  $type_named_export: (id) => tree("kind.NamedExport true", list([tree("kind.ExportNamedSpecifier false", id, "absent")]), "absent", "absent"),
  // `export { a };` and `export { q as a };` beside another export of that name
  $export_again: (id) => tree("kind.NamedExport false", list([tree("kind.ExportNamedSpecifier false", id, "absent")]), "absent", "absent"),
  $export_q_as: (id) => tree("kind.NamedExport false", list([tree("kind.ExportNamedSpecifier false", `ident ${bytes("q")}`, id)]), "absent", "absent"),
  $type_export_all: () => tree("kind.ExportAll true", `string ${bytes("m")}`, "absent"),
  $export_as_namespace: (id) => tree("kind.TsNamespaceExportDecl", id),
  $default_overload: (id) => tree("kind.ExportDefaultDecl", tree("kind.FnExpr", id, tree("kind.Function false false", "list End", "absent", "absent", "absent"))),
  $bodiless_namespace: (id) => tree("kind.TsModuleDecl false false", id, "absent"),
  $ambient_namespace: (id) => tree("kind.TsModuleDecl true false", id, tree("kind.TsModuleBlock", list([tree("kind.ExprStmt", "whole 1")]))),
  $type_namespace_path: (id) => tree("kind.TsModuleDecl false false", id, tree("kind.TsNamespaceDecl false false", id, tree("kind.TsModuleBlock", list([tree("kind.TsInterfaceDecl false", id)])))),
  $namespace_path: (id) => tree("kind.TsModuleDecl false false", id, tree("kind.TsNamespaceDecl false false", id, tree("kind.TsModuleBlock", list([tree("kind.ExprStmt", "whole 1")])))),
  $named_export: (id) => tree("kind.NamedExport false", list([tree("kind.ExportNamedSpecifier false", id, "absent")]), "absent", "absent"),
  $break: () => tree("kind.BreakStmt", "absent"),
  $continue: () => tree("kind.ContinueStmt", "absent"),
  $break_label: (id) => tree("kind.BreakStmt", id),
  $continue_label: (id) => tree("kind.ContinueStmt", id),
  $yield: () => `statement (${tree("kind.YieldExpr false", "whole 1")})`,
  $delete: (id) => `statement (unary unary.Delete (${id}))`,
  $private: (id) => `statement (${tree("kind.MemberExpr", id, tree(`kind.PrivateName ${bytes("x")}`))})`,
  $private_in: (id) => `statement (binary binary.In (${tree(`kind.PrivateName ${bytes("x")}`)}) (${id}))`,
  $new_target: () => `statement (${tree("kind.MetaPropExpr NewTarget")})`,
  $super: () => `statement (super_member ${bytes("x")})`,
  $escape: () => `statement (${tree("kind.Tpl", "list End", list([tree(`kind.TplElement ${bytes("\\u")} None true`)]))})`,
  $escape_and_call: (id) =>
    `statement (${tree("kind.Tpl", list([`call (${id}) End`]), list([tree(`kind.TplElement ${bytes("\\u")} None false`), tree(`kind.TplElement ${bytes("")} (Some ${bytes("")}) true`)]))})`,
  $namespace: (id) => tree("kind.TsModuleDecl false false", id, tree("kind.TsModuleBlock", list([tree("kind.ExprStmt", "whole 1")]))),
};

/** What stands for types among the members of a class. */
const members = {
  $index: () => tree("kind.TsIndexSignature false false"),
  $abstract: () => tree("kind.ClassProp (record (modifiers false) { is_abstract = true }) false false false", `key ${bytes("x")}`, "absent", "type'"),
  $declared: () => tree("kind.ClassProp (modifiers false) false true false", `key ${bytes("x")}`, "absent", "type'"),
  $overload: () => tree("kind.ClassMethod method.Method (modifiers false)", `key ${bytes("x")}`, tree("kind.Function false false", "list End", "absent", "absent", "absent")),
  $abstract_method: () => tree("kind.ClassMethod method.Method (record (modifiers false) { is_abstract = true })", `key ${bytes("x")}`, "function End End"),
  $private_declared: () => tree("kind.PrivateProp (modifiers false) false true false", tree(`kind.PrivateName ${bytes("x")}`), "absent", "type'"),
  $private_abstract: () => tree("kind.PrivateProp (record (modifiers false) { is_abstract = true }) false false false", tree(`kind.PrivateName ${bytes("x")}`), "absent", "type'"),
  $private_overload: () => tree("kind.PrivateMethod method.Method (modifiers false)", tree(`kind.PrivateName ${bytes("x")}`), tree("kind.Function false false", "list End", "absent", "absent", "absent")),
  $private_abstract_method: () => tree("kind.PrivateMethod method.Method (record (modifiers false) { is_abstract = true })", tree(`kind.PrivateName ${bytes("x")}`), "function End End"),
  $arguments: () => `field false (key ${bytes("x")}) (ident ${bytes("arguments")})`,
  $read_property: () => {
    const read = tree("kind.Param", tree("kind.AssignPat", `binding ${bytes("a")}`, `ident ${bytes("x")}`));
    return tree("kind.Constructor None false", `key ${bytes("constructor")}`, list([read, tree("kind.TsParamProp None false false", `binding ${bytes("x")}`)]), "block End");
  },
  $property: () => tree("kind.Constructor None false", `key ${bytes("constructor")}`, list([tree("kind.TsParamProp None false false", `binding ${bytes("x")}`)]), "block End"),
  $overloaded: () => tree("kind.Constructor None false", `key ${bytes("constructor")}`, "list End", "absent"),
};

/** What stands for enums: `$enum_E: ({ A: $auto, B: 1 });` is `enum E { A, B = 1 }`, also `$const_enum_E` and `$export_enum_E`; names of members have the context 2. */
function enumeration(label, object) {
  const [, isExport, isConst, of] = /^\$(export_)?(const_)?enum_(.+)$/.exec(label);
  const items = object.properties.map(({ key, value }) =>
    tree("kind.TsEnumMember", key.type === "Identifier" ? ident(`$2_${key.name}`) : expression(key), value.type === "Identifier" && value.name === "$auto" ? "absent" : expression(value)));
  const declared = tree(`kind.TsEnumDecl false ${isConst !== undefined}`, ident(of), list(items));
  return isExport ? tree("kind.ExportDecl", declared) : declared;
}

const unparenthesized = (n) => (n.type === "ParenthesizedExpression" ? n.expression : n);

function statement(n) {
  const e = n.expression;
  if (n.type === "ExpressionStatement" && e.type === "MemberExpression" && e.object.name in declarations) return declarations[e.object.name](`ident ${bytes(e.property.name)}`);
  switch (n.type) {
    case "ExportNamedDeclaration":
      if (importsAs(n.declaration)) return importEquals(n.declaration, true);
      if (n.declaration) return tree("kind.ExportDecl", statement(n.declaration));
      return tree("kind.NamedExport false", list(n.specifiers.map(exportSpecifier)), n.source ? expression(n.source) : "absent", "absent");
    case "ExportDefaultDeclaration":
      if (n.declaration.type === "ClassDeclaration") return tree("kind.ExportDefaultDecl", tree("kind.ClassExpr", n.declaration.id ? ident(n.declaration.id.name) : "absent", `class' ${classNode(n.declaration)}`));
      if (n.declaration.type === "FunctionDeclaration") return tree("kind.ExportDefaultDecl", functionExpression(n.declaration));
      return tree("kind.ExportDefaultExpr", expression(n.declaration));
    case "ExportAllDeclaration": return tree("kind.ExportAll false", expression(n.source), "absent");
    case "ExpressionStatement": return `statement ${inner(expression(n.expression))}`;
    case "EmptyStatement": return tree("kind.EmptyStmt");
    case "DebuggerStatement": return tree("kind.DebuggerStmt");
    case "VariableDeclaration": return declaration(n);
    case "FunctionDeclaration":
      if (n.async || n.generator) return tree("kind.FnDecl false", `ident ${bytes(n.id.name)}`, functionNode(n));
      return `declare_function ${bytes(n.id.name)} ${functionNode(n).slice("function ".length)}`;
    case "ClassDeclaration": return `declare_class ${bytes(n.id.name)} ${classNode(n)}`;
    case "BlockStatement": return block(n);
    case "IfStatement": return tree("kind.IfStmt", expression(n.test), statement(n.consequent), n.alternate ? statement(n.alternate) : "absent");
    case "WhileStatement": return tree("kind.WhileStmt", expression(n.test), statement(n.body));
    case "DoWhileStatement": return tree("kind.DoWhileStmt", expression(n.test), statement(n.body));
    case "ForStatement":
      return tree("kind.ForStmt", n.init ? (n.init.type === "VariableDeclaration" ? declaration(n.init) : expression(n.init)) : "absent",
        n.test ? expression(n.test) : "absent", n.update ? expression(n.update) : "absent", statement(n.body));
    case "ForOfStatement": return tree("kind.ForOfStmt false", head(n.left), expression(n.right), statement(n.body));
    case "ForInStatement": return tree("kind.ForInStmt", head(n.left), expression(n.right), statement(n.body));
    case "SwitchStatement":
      return tree("kind.SwitchStmt", expression(n.discriminant), list(n.cases.map((c) => tree("kind.SwitchCase", c.test ? expression(c.test) : "absent", list(c.consequent.map(statement))))));
    // what stands for the block of a namespace as a statement, and for `export = e`
    case "LabeledStatement":
      if (n.label.name === "$export") return tree("kind.TsExportAssignment", expression(unparenthesized(n.body.expression)));
      if (/^\$(export_)?(const_)?enum_/.test(n.label.name)) return enumeration(n.label.name, unparenthesized(n.body.expression));
      if (n.label.name === "$block") return tree("kind.TsModuleBlock", list(n.body.body.map(statement)));
      return tree("kind.LabeledStmt", `ident ${bytes(n.label.name)}`, statement(n.body));
    case "BreakStatement": return tree("kind.BreakStmt", label(n.label));
    case "ContinueStatement": return tree("kind.ContinueStmt", label(n.label));
    case "ReturnStatement": return `returns ${n.argument ? inner(expression(n.argument)) : "absent"}`;
    case "ThrowStatement": return tree("kind.ThrowStmt", expression(n.argument));
    case "TryStatement":
      return tree("kind.TryStmt", block(n.block),
        n.handler ? tree("kind.CatchClause", n.handler.param ? pattern(n.handler.param) : "absent", block(n.handler.body)) : "absent",
        n.finalizer ? block(n.finalizer) : "absent");
    case "ImportDeclaration": return tree("kind.ImportDecl false", list(n.specifiers.map(specifier)), expression(n.source), "absent");
    default: throw new Error(`no tree for ${n.type}`);
  }
}

const isEnum = (n) => n.type === "LabeledStatement" && /^\$(export_)?(const_)?enum_/.test(n.label.name);

/** The value of an initialiser, by what is known of the members before it; undefined where nothing is known. */
function folded(n, of, members) {
  const known = (name) => members.findLast((m) => m.of === of && m.name === name)?.value;
  if (n.type === "Literal" && ["number", "string"].includes(typeof n.value)) return n.value;
  if (n.type === "ParenthesizedExpression") return folded(n.expression, of, members);
  if (n.type === "Identifier") return { NaN, Infinity }[n.name] ?? known(n.name.replace(/^\$2_/, ""));
  if (n.type === "MemberExpression" && n.object.name === of) return known(n.computed ? n.property.value : n.property.name);
  if (n.type === "UnaryExpression" && "+-~".includes(n.operator)) {
    const e = folded(n.argument, of, members);
    return typeof e === "number" ? { "+": e, "-": -e, "~": ~e }[n.operator] : undefined;
  }
  if (n.type !== "BinaryExpression") return undefined;
  const [left, right] = [folded(n.left, of, members), folded(n.right, of, members)];
  if (left === undefined || right === undefined) return undefined;
  if (n.operator === "+") return left + right;
  return { "*": left * right, "-": left - right }[n.operator];
}

const numberText = (n) => Object.is(n, -0) ? "js_number.NegZero" : Number.isNaN(n) ? "js_number.NaN" : n === Infinity ? "js_number.Infinity" : n === -Infinity ? "js_number.NegInfinity" :
  n < 0 ? `js_number.Whole (negsuc ${-n - 1})` : `js_number.Whole (pos ${n})`;
const knownText = (v) => v === undefined ? "enum_value.Opaque" : v === null ? "enum_value.Void" : typeof v === "string" ? `enum_value.String ${bytes(v)}` : `enum_value.Number (${numberText(v)})`;
const listed = (items) => (items.length === 0 ? "[]" : `(${items.join(" ∷ ")} ∷ [])`);

/** What is known of the enums of a module, in the words of crates/ecma_runs; undefined where there are none. */
export function enumsOf(source) {
  const { body } = parseModule(source);
  const all = [];
  const visit = (n) => {
    if (Array.isArray(n)) return n.forEach(visit);
    if (n === null || typeof n !== "object") return;
    if (n.type && isEnum(n)) all.push(n);
    Object.values(n).forEach(visit);
  };
  visit(body);
  if (all.length === 0) return undefined;
  const members = [];
  const names = [];
  const constants = new Set();
  const exported = new Set([...source.matchAll(/\$named_export\.(\w+)/g)].map((m) => m[1]));
  for (const n of all) {
    const [, isExport, isConst, of] = /^\$(export_)?(const_)?enum_(.+)$/.exec(n.label.name);
    if (isConst) constants.add(of);
    if (isExport) exported.add(of);
    let next = 0;
    for (const { key, value } of unparenthesized(n.body.expression).properties) {
      const name = key.name ?? key.value;
      const found = value.type === "Identifier" && value.name === "$auto" ? next : folded(value, of, members);
      members.push({ of, name, value: found, isConst: isConst !== undefined });
      if (key.type === "Identifier") names.push([name, of]);
      next = typeof found === "number" ? found + 1 : null;
    }
  }
  const entry = (m) => `entry ${bytes(m.of)} ${bytes(m.name)} ${knownText(m.value).includes(" ") ? `(${knownText(m.value)})` : knownText(m.value)} ${m.isConst}`;
  const unwritten = [...constants].filter((of) => !exported.has(of));
  return `(known ${listed(members.map(entry))} ${listed(names.map(([name, of]) => `named ${bytes(name)} ${bytes(of)}`))} ${listed(unwritten.map((of) => bytes(of)))})`;
}

const parseModule = (source) => parse(source, { ecmaVersion: 2022, sourceType: "module", preserveParens: true, allowReturnOutsideFunction: true, allowSuperOutsideMethod: true });

/** The trees of a module's items. */
export function itemsOf(source) {
  return parseModule(source).body.map(statement);
}

// Plain modules as trees in the notation of compare/notation.mjs, by the parser acorn that comes with node: needs --expose-internals.
// A raw tree has expressions where an assignment or the head of a loop has a pattern; a finished one has patterns there.
import { createRequire } from "node:module";
import {
  absent, assigns, bigIntKind, binaries, kindOf, list, methods, numberKind, partKind, quoted, regexKind, stringKind, unaries,
  updates, variables, worded, writer,
} from "./notation.mjs";

const { parse } = createRequire(import.meta.url)("internal/deps/acorn/acorn/dist/acorn");

/** Reads modules as acorn does, without the rules on what stands around a statement where `lenient`. */
export function parseModule(text, lenient, tokens) {
  return parse(text, {
    ecmaVersion: 16, sourceType: "module", preserveParens: true, allowHashBang: true, onToken: tokens,
    allowReturnOutsideFunction: lenient, allowSuperOutsideMethod: lenient,
  });
}

/** The tree of a plain module, or acorn's SyntaxError. */
export function acornTree(text, { finished = false, lenient = true } = {}) {
  const tokens = [];
  return new Trees(text, parseModule(text, lenient, tokens), tokens, finished).module();
}

class Trees {
  constructor(text, program, tokens, finished) {
    Object.assign(this, { text, program, tokens, finished, at: writer(text) });
    this.starts = new Map(tokens.map((token, index) => [token.start, index]));
  }

  node(kind, n, ...children) {
    return this.at(kind, n.start, n.end, ...children);
  }

  /** The token that begins at a place; the first one from a place on. */
  tokenAt(start) {
    return this.tokens[this.starts.get(start)];
  }

  indexFrom(place) {
    let low = 0;
    let high = this.tokens.length;
    while (low < high) {
      const middle = (low + high) >> 1;
      if (this.tokens[middle].start < place) low = middle + 1;
      else high = middle;
    }
    return low;
  }

  tokenFrom(place) {
    return this.tokens[this.indexFrom(place)];
  }

  tokenBefore(place) {
    return this.tokens[this.indexFrom(place) - 1];
  }

  raw(n) {
    return this.text.slice(n.start, n.end);
  }

  module() {
    const { body } = this.program;
    const hashbang = /^#!([^\n\r\u2028\u2029]*)/.exec(this.text);
    const start = hashbang ? 0 : body.length ? body[0].start : this.text.length;
    const kind = `Module ${hashbang ? quoted(hashbang[1]) : "none"}`;
    return this.at(kind, start, this.text.length, list(body.map((n) => this.statement(n))));
  }

  // names, keys and literals

  ident(n) {
    return n ? this.node(`Ident ${quoted(n.name)}`, n) : absent;
  }

  binding(n) {
    return this.node("BindingIdent", n, this.ident(n), absent);
  }

  name(n) {
    return this.node(`IdentName ${quoted(n.name)}`, n);
  }

  privateName(n) {
    return this.node(`PrivateName ${quoted(n.name)}`, n);
  }

  /** What stands in brackets, with them. */
  bracketed(n) {
    return this.at("ComputedPropName", this.tokenBefore(n.start).start, this.tokenFrom(n.end).end, this.expression(n));
  }

  /** The key of a member or a property. */
  key(n, computed) {
    if (computed) return this.bracketed(n);
    if (n.type === "PrivateIdentifier") return this.privateName(n);
    return n.type === "Identifier" ? this.name(n) : this.expression(n);
  }

  exportName(n) {
    return n.type === "Identifier" ? this.ident(n) : this.expression(n);
  }

  literal(n) {
    if (n.regex) return this.node(regexKind(n.regex.pattern, n.regex.flags), n);
    if (n.bigint !== undefined) return this.node(bigIntKind(this.raw(n)), n);
    if (n.value === null) return this.node("Null", n);
    if (typeof n.value === "boolean") return this.node(kindOf("Bool", { value: n.value }), n);
    if (typeof n.value === "string") return this.node(stringKind(n.value, this.raw(n)), n);
    return this.node(numberKind(this.raw(n)), n);
  }

  /** A text part is the whole token: with its backtick or brace before it, and with its backtick or `${` behind it. */
  part(n) {
    const kind = partKind(n.value.raw, n.value.cooked ?? null, n.tail);
    return this.at(kind, n.start - 1, n.end + (n.tail ? 1 : 2));
  }

  template(n) {
    return this.node("Tpl", n, list(n.expressions.map((e) => this.expression(e))), list(n.quasis.map((q) => this.part(q))));
  }

  // expressions

  argument(n) {
    return n.type === "SpreadElement" ? this.node("SpreadElement", n, this.expression(n.argument)) : this.expression(n);
  }

  arguments(n) {
    return list(n.map((e) => this.argument(e)));
  }

  property(n) {
    if (n.type === "SpreadElement") return this.argument(n);
    if (n.shorthand) return this.ident(n.key);
    const key = this.key(n.key, n.computed);
    const body = () => this.statement(n.value.body);
    if (n.kind === "get") return this.node("GetterProp", n, key, absent, body());
    if (n.kind === "set") return this.node("SetterProp", n, key, absent, this.pattern(n.value.params[0]), body());
    if (n.method) return this.node("MethodProp", n, key, this.functionFrom(n.start, n.value));
    return this.node("KeyValueProp", n, key, this.expression(n.value));
  }

  object(n, property) {
    return this.node("ObjectLit", n, list(n.properties.map(property)));
  }

  isOptional(n) {
    return (n.type === "MemberExpression" && (n.optional || this.isOptional(n.object)))
      || (n.type === "CallExpression" && (n.optional || this.isOptional(n.callee)));
  }

  /** A member or a call, which stands in an optional chain where a link before it has `?.`. */
  link(n) {
    const inner = this.unlinked(n, this.isOptional(n));
    return this.isOptional(n) ? this.node(kindOf("OptChainExpr", { optional: n.optional }), n, inner) : inner;
  }

  unlinked(n, optional) {
    if (n.type === "CallExpression") {
      return this.node(optional ? "OptCall" : "CallExpr", n, this.expression(n.callee), this.arguments(n.arguments), absent);
    }
    const property = n.computed ? this.brackets(n) : this.key(n.property, false);
    return this.node(n.object.type === "Super" ? "SuperPropExpr" : "MemberExpr", n, this.expression(n.object), property);
  }

  brackets(n) {
    return this.at("ComputedPropName", this.tokenBefore(n.property.start).start, n.end, this.expression(n.property));
  }

  construction(n) {
    const given = n.callee.end === n.end ? absent : this.arguments(n.arguments);
    return this.node("NewExpr", n, this.expression(n.callee), given, absent);
  }

  importCall(n) {
    const callee = this.at("Import", n.start, n.start + "import".length);
    return this.node("CallExpr", n, callee, this.arguments([n.source, ...(n.options ? [n.options] : [])]), absent);
  }

  arrow(n) {
    const kind = kindOf("ArrowExpr", { is_async: n.async, is_generator: false });
    return this.node(kind, n, list(n.params.map((p) => this.pattern(p))), this.statementOrExpression(n.body), absent, absent);
  }

  statementOrExpression(n) {
    return n.type === "BlockStatement" ? this.statement(n) : this.expression(n);
  }

  expression(n) {
    switch (n.type) {
      case "Identifier": return this.ident(n);
      case "PrivateIdentifier": return this.privateName(n);
      case "Literal": return this.literal(n);
      case "TemplateLiteral": return this.template(n);
      case "TaggedTemplateExpression": return this.node("TaggedTpl", n, this.expression(n.tag), absent, this.template(n.quasi));
      case "ThisExpression": return this.node("ThisExpr", n);
      case "Super": return this.node("Super", n);
      case "ArrayExpression": return this.node("ArrayLit", n, list(n.elements.map((e) => (e ? this.argument(e) : absent))));
      case "ObjectExpression": return this.object(n, (p) => this.property(p));
      case "FunctionExpression": return this.node("FnExpr", n, this.ident(n.id), this.functionFrom(n.start, n));
      case "ArrowFunctionExpression": return this.arrow(n);
      case "ClassExpression": return this.node("ClassExpr", n, this.ident(n.id), this.classOf(n));
      case "UnaryExpression": return this.node(kindOf("UnaryExpr", { op: unaries[n.operator] }), n, this.expression(n.argument));
      case "UpdateExpression": {
        const kind = kindOf("UpdateExpr", { op: updates[n.operator], prefix: n.prefix });
        return this.node(kind, n, this.expression(n.argument));
      }
      case "BinaryExpression":
      case "LogicalExpression": {
        const kind = kindOf("BinExpr", { op: binaries[n.operator] });
        return this.node(kind, n, this.expression(n.left), this.expression(n.right));
      }
      case "AssignmentExpression": {
        const kind = kindOf("AssignExpr", { op: assigns[n.operator] });
        return this.node(kind, n, this.target(n.left), this.expression(n.right));
      }
      case "ConditionalExpression":
        return this.node("CondExpr", n, this.expression(n.test), this.expression(n.consequent), this.expression(n.alternate));
      case "SequenceExpression": return this.node("SeqExpr", n, ...n.expressions.map((e) => this.expression(e)));
      case "ChainExpression": return this.expression(n.expression);
      case "MemberExpression":
      case "CallExpression": return this.link(n);
      case "NewExpression": return this.construction(n);
      case "ImportExpression": return this.importCall(n);
      case "MetaProperty": return this.node(kindOf("MetaPropExpr", { kind: n.meta.name === "new" ? "NewTarget" : "ImportMeta" }), n);
      case "ParenthesizedExpression": return this.node("ParenExpr", n, this.expression(n.expression));
      case "AwaitExpression": return this.node("AwaitExpr", n, this.expression(n.argument));
      case "YieldExpression":
        return this.node(kindOf("YieldExpr", { delegate: n.delegate }), n, n.argument ? this.expression(n.argument) : absent);
      default: return this.unfinished(n);
    }
  }

  // patterns

  /** A declared pattern; or an assigned one in a finished tree. */
  pattern(n) {
    switch (n.type) {
      case "Identifier": return this.binding(n);
      case "AssignmentPattern": return this.node("AssignPat", n, this.pattern(n.left), this.expression(n.right));
      case "RestElement": return this.node("RestPat", n, this.pattern(n.argument), absent);
      case "ArrayPattern": {
        const elements = list(n.elements.map((e) => (e ? this.pattern(e) : absent)));
        return this.node(kindOf("ArrayPat", { optional: false }), n, elements, absent);
      }
      case "ObjectPattern":
        return this.node(kindOf("ObjectPat", { optional: false }), n, list(n.properties.map((p) => this.patternProperty(p))), absent);
      default: return this.expression(n);
    }
  }

  patternProperty(n) {
    if (n.type === "RestElement") return this.pattern(n);
    if (!n.shorthand) return this.node("KeyValuePatProp", n, this.key(n.key, n.computed), this.pattern(n.value));
    const value = n.value.type === "AssignmentPattern" ? this.expression(n.value.right) : absent;
    return this.node("AssignPatProp", n, this.binding(n.key), value);
  }

  /** What acorn has as a pattern, as the expression that was written. */
  unfinished(n) {
    switch (n.type) {
      case "ArrayPattern": return this.node("ArrayLit", n, list(n.elements.map((e) => (e ? this.expression(e) : absent))));
      case "ObjectPattern": return this.object(n, (p) => this.unfinishedProperty(p));
      case "RestElement": return this.node("SpreadElement", n, this.expression(n.argument));
      case "AssignmentPattern":
        return this.node(kindOf("AssignExpr", { op: "Assign" }), n, this.expression(n.left), this.expression(n.right));
      default: throw new Error(`no tree for ${n.type}`);
    }
  }

  unfinishedProperty(n) {
    if (n.type === "RestElement") return this.expression(n);
    if (!n.shorthand) return this.node("KeyValueProp", n, this.key(n.key, n.computed), this.expression(n.value));
    if (n.value.type !== "AssignmentPattern") return this.ident(n.key);
    return this.node("AssignProp", n, this.ident(n.key), this.expression(n.value.right));
  }

  target(n) {
    return this.finished && n.type.endsWith("Pattern") ? this.pattern(n) : this.expression(n);
  }

  /** What stands before `in` or `of`. */
  head(n) {
    if (n.type === "VariableDeclaration") return this.statement(n);
    return this.finished ? this.pattern(n) : this.expression(n);
  }

  // functions and classes

  parameters(n) {
    return list(n.map((p) => this.node("Param", p, this.pattern(p))));
  }

  /** What functions have in common, from a place on. */
  functionFrom(start, n) {
    const kind = kindOf("Function", { is_generator: n.generator, is_async: n.async });
    return this.at(kind, start, n.end, this.parameters(n.params), this.statement(n.body), absent, absent);
  }

  classOf(n) {
    const heritage = n.superClass ? this.expression(n.superClass) : absent;
    return this.node(kindOf("Class", { is_abstract: false }), n, heritage, list(this.members(n.body)), absent, absent, "[]");
  }

  /** The members of a class, and each `;` between them. */
  members(body) {
    const members = body.body.map((n) => [n.start, this.member(n)]);
    let place = body.start + 1;
    for (const end of [...body.body, { start: body.end - 1, end: body.end }]) {
      for (let index = this.indexFrom(place); this.tokens[index].start < end.start; index++) {
        members.push([this.tokens[index].start, this.node("EmptyStmt", this.tokens[index])]);
      }
      place = end.end;
    }
    return members.sort(([one], [other]) => one - other).map(([, member]) => member);
  }

  member(n) {
    if (n.type === "StaticBlock") {
      const opening = this.tokens[this.indexFrom(n.start) + 1].start;
      return this.node("StaticBlock", n, this.at("BlockStmt", opening, n.end, this.statements(n.body)));
    }
    const key = this.key(n.key, n.computed);
    const isPrivate = n.key.type === "PrivateIdentifier";
    if (n.type === "PropertyDefinition") {
      const kind = worded(isPrivate ? "PrivateProp" : "ClassProp", n.static && "static");
      return this.node(kind, n, key, n.value ? this.expression(n.value) : absent, absent);
    }
    if (n.kind === "constructor") return this.node("Constructor", n, key, this.parameters(n.value.params), this.statement(n.value.body));
    const start = n.static ? this.tokens[this.indexFrom(n.start) + 1].start : n.start;
    const kind = worded(isPrivate ? "PrivateMethod" : "ClassMethod", methods[n.kind], n.static && "static");
    return this.node(kind, n, key, this.functionFrom(start, n.value));
  }

  // statements

  statements(n) {
    return list(n.map((s) => this.statement(s)));
  }

  maybe(n) {
    return n ? this.expression(n) : absent;
  }

  declarator(n) {
    return this.node(kindOf("VarDeclarator", { definite: false }), n, this.pattern(n.id), this.maybe(n.init));
  }

  initial(n) {
    return n && n.type === "VariableDeclaration" ? this.statement(n) : this.maybe(n);
  }

  statement(n) {
    switch (n.type) {
      case "ExpressionStatement": return this.node("ExprStmt", n, this.expression(n.expression));
      case "EmptyStatement": return this.node("EmptyStmt", n);
      case "DebuggerStatement": return this.node("DebuggerStmt", n);
      case "VariableDeclaration": {
        const kind = kindOf("VarDecl", { kind: variables[n.kind], declare: false });
        return this.node(kind, n, list(n.declarations.map((d) => this.declarator(d))));
      }
      case "FunctionDeclaration":
        return this.node(kindOf("FnDecl", { declare: false }), n, this.ident(n.id), this.functionFrom(n.start, n));
      case "ClassDeclaration": return this.node(kindOf("ClassDecl", { declare: false }), n, this.ident(n.id), this.classOf(n));
      case "BlockStatement": return this.node("BlockStmt", n, this.statements(n.body));
      case "IfStatement":
        return this.node("IfStmt", n, this.expression(n.test), this.statement(n.consequent), n.alternate ? this.statement(n.alternate) : absent);
      case "WhileStatement": return this.node("WhileStmt", n, this.expression(n.test), this.statement(n.body));
      case "DoWhileStatement": return this.node("DoWhileStmt", n, this.expression(n.test), this.statement(n.body));
      case "ForStatement":
        return this.node("ForStmt", n, this.initial(n.init), this.maybe(n.test), this.maybe(n.update), this.statement(n.body));
      case "ForInStatement": return this.node("ForInStmt", n, this.head(n.left), this.expression(n.right), this.statement(n.body));
      case "ForOfStatement": {
        const kind = kindOf("ForOfStmt", { is_await: n.await });
        return this.node(kind, n, this.head(n.left), this.expression(n.right), this.statement(n.body));
      }
      case "SwitchStatement": return this.node("SwitchStmt", n, this.expression(n.discriminant), this.cases(n.cases));
      case "LabeledStatement": return this.node("LabeledStmt", n, this.ident(n.label), this.statement(n.body));
      case "BreakStatement": return this.node("BreakStmt", n, this.ident(n.label));
      case "ContinueStatement": return this.node("ContinueStmt", n, this.ident(n.label));
      case "ReturnStatement": return this.node("ReturnStmt", n, this.maybe(n.argument));
      case "ThrowStatement": return this.node("ThrowStmt", n, this.expression(n.argument));
      case "TryStatement": {
        const handler = n.handler ? this.handler(n.handler) : absent;
        return this.node("TryStmt", n, this.statement(n.block), handler, n.finalizer ? this.statement(n.finalizer) : absent);
      }
      default: return this.moduleDeclaration(n);
    }
  }

  cases(n) {
    return list(n.map((c) => this.node("SwitchCase", c, this.maybe(c.test), this.statements(c.consequent))));
  }

  handler(n) {
    return this.node("CatchClause", n, n.param ? this.pattern(n.param) : absent, this.statement(n.body));
  }

  // imports and exports

  /** What stands behind `with`, if it does, behind a source. */
  attributes(n) {
    const index = this.indexFrom(n.source.end);
    const token = this.tokens[index];
    if (!token || token.end > n.end || this.raw(token) !== "with") return absent;
    const opening = this.tokens[index + 1].start;
    const closing = n.attributes.length ? n.attributes.at(-1).end : opening + 1;
    const end = this.tokens.slice(this.indexFrom(closing)).find((t) => this.raw(t) === "}").end;
    const properties = n.attributes.map((a) => this.node("KeyValueProp", a, this.key(a.key, false), this.literal(a.value)));
    return this.at("ObjectLit", opening, end, list(properties));
  }

  importSpecifier(n) {
    if (n.type === "ImportDefaultSpecifier") return this.node("ImportDefaultSpecifier", n, this.ident(n.local));
    if (n.type === "ImportNamespaceSpecifier") return this.node("ImportStarAsSpecifier", n, this.ident(n.local));
    const imported = n.imported.start === n.local.start ? absent : this.exportName(n.imported);
    return this.node(kindOf("ImportNamedSpecifier", { is_type_only: false }), n, this.ident(n.local), imported);
  }

  exportSpecifier(n) {
    const exported = n.exported.start === n.local.start ? absent : this.exportName(n.exported);
    return this.node(kindOf("ExportNamedSpecifier", { is_type_only: false }), n, this.exportName(n.local), exported);
  }

  namedExport(n, specifiers) {
    const source = n.source ? this.expression(n.source) : absent;
    return this.node(kindOf("NamedExport", { type_only: false }), n, list(specifiers), source, n.source ? this.attributes(n) : absent);
  }

  exportAll(n) {
    if (!n.exported) return this.node(kindOf("ExportAll", { type_only: false }), n, this.expression(n.source), this.attributes(n));
    const star = this.tokens[this.indexFrom(n.start) + 1].start;
    return this.namedExport(n, [this.at("ExportNamespaceSpecifier", star, n.exported.end, this.exportName(n.exported))]);
  }

  exportDefault(n) {
    const d = n.declaration;
    if (d.type === "FunctionDeclaration") {
      return this.node("ExportDefaultDecl", n, this.node("FnExpr", d, this.ident(d.id), this.functionFrom(d.start, d)));
    }
    if (d.type === "ClassDeclaration") return this.node("ExportDefaultDecl", n, this.node("ClassExpr", d, this.ident(d.id), this.classOf(d)));
    return this.node("ExportDefaultExpr", n, this.expression(d));
  }

  moduleDeclaration(n) {
    switch (n.type) {
      case "ImportDeclaration": {
        const specifiers = list(n.specifiers.map((s) => this.importSpecifier(s)));
        return this.node(kindOf("ImportDecl", { type_only: false }), n, specifiers, this.expression(n.source), this.attributes(n));
      }
      case "ExportNamedDeclaration":
        if (n.declaration) return this.node("ExportDecl", n, this.statement(n.declaration));
        return this.namedExport(n, n.specifiers.map((s) => this.exportSpecifier(s)));
      case "ExportAllDeclaration": return this.exportAll(n);
      case "ExportDefaultDeclaration": return this.exportDefault(n);
      default: throw new Error(`no tree for ${n.type}`);
    }
  }
}

// Names, types, expressions and patterns of TypeScript's parser in the notation of compare/notation.mjs: a part of compare/typescript_trees.mjs.
import { createRequire } from "node:module";
import {
  absent, assigns, bigIntKind, binaries, kindOf, list, numberKind, partKind, quoted, regexKind, stringKind, unaries, updates, worded,
  writer,
} from "./notation.mjs";

export const ts = createRequire(import.meta.url)(process.env.TYPESCRIPT ?? "/usr/share/nodejs/typescript");
const K = ts.SyntaxKind;
const prefixes = {
  [K.PlusToken]: "Plus", [K.MinusToken]: "Minus", [K.TildeToken]: "Tilde", [K.ExclamationToken]: "Bang",
};
const keywordOperators = { [K.DeleteExpression]: "delete", [K.TypeOfExpression]: "typeof", [K.VoidExpression]: "void" };

export class Expressions {
  constructor(text, file, finished) {
    Object.assign(this, { text, file, finished, at: writer(text) });
  }

  start(n) {
    return n.getStart(this.file);
  }

  node(kind, n, ...children) {
    return this.at(kind, this.start(n), n.end, ...children);
  }

  raw(n) {
    return this.text.slice(this.start(n), n.end);
  }

  /** Where the first token from a place on begins. */
  next(place) {
    return ts.skipTrivia(this.text, place);
  }

  list(nodes, each) {
    return list((nodes ?? []).map((n) => each.call(this, n)));
  }

  maybe(n) {
    return n ? this.expression(n) : absent;
  }

  // modifiers

  has(n, kind) {
    return (n.modifiers ?? []).some((m) => m.kind === kind);
  }

  /** Where a node begins behind those modifiers that stand in a node around it. */
  startBehind(n, kinds) {
    const skipped = (n.modifiers ?? []).filter((m) => kinds.includes(m.kind));
    return skipped.length ? this.next(skipped.at(-1).end) : this.start(n);
  }

  accessibility(n) {
    if (this.has(n, K.PublicKeyword)) return "public";
    if (this.has(n, K.ProtectedKeyword)) return "protected";
    return this.has(n, K.PrivateKeyword) && "private";
  }

  memberModifiers(n) {
    return [
      this.accessibility(n), this.has(n, K.StaticKeyword) && "static", this.has(n, K.AbstractKeyword) && "abstract",
      this.has(n, K.OverrideKeyword) && "override", n.questionToken && "optional",
    ];
  }

  // types

  type(n) {
    return this.node("TsType", n);
  }

  /** A type behind its colon. */
  annotation(n) {
    if (!n) return absent;
    const colon = this.text.lastIndexOf(":", n.pos);
    return this.at("TsTypeAnn", colon, n.end, this.type(n));
  }

  inAngles(kind, nodes) {
    if (!nodes) return absent;
    return this.at(kind, this.text.lastIndexOf("<", nodes.pos), this.next(nodes.end) + 1);
  }

  typeParameters(n) {
    return this.inAngles("TsTypeParamDecl", n.typeParameters);
  }

  typeArguments(n) {
    return this.inAngles("TsTypeParamInstantiation", n.typeArguments);
  }

  // names, keys and literals

  ident(n, optional) {
    return n ? this.node(worded(`Ident ${quoted(n.text ?? this.raw(n))}`, optional && "optional"), n) : absent;
  }

  key(n) {
    switch (n.kind) {
      case K.PrivateIdentifier: return this.node(`PrivateName ${quoted(n.text.slice(1))}`, n);
      case K.ComputedPropertyName: return this.node("ComputedPropName", n, this.expression(n.expression));
      case K.Identifier: return this.node(`IdentName ${quoted(n.text)}`, n);
      default: return this.expression(n);
    }
  }

  exportName(n) {
    return n.kind === K.StringLiteral ? this.expression(n) : this.ident(n);
  }

  part(n) {
    const tail = n.kind === K.TemplateTail || n.kind === K.NoSubstitutionTemplateLiteral;
    const inside = this.text.slice(this.start(n) + 1, n.end - (tail ? 1 : 2));
    const illFormed = n.templateFlags & ts.TokenFlags.ContainsInvalidEscape;
    return this.node(partKind(inside.replace(/\r\n?/g, "\n"), illFormed ? null : n.text, tail), n);
  }

  template(n) {
    if (n.kind === K.NoSubstitutionTemplateLiteral) return this.node("Tpl", n, "[]", list([this.part(n)]));
    const parts = [n.head, ...n.templateSpans.map((s) => s.literal)];
    return this.node("Tpl", n, this.list(n.templateSpans, (s) => this.expression(s.expression)), this.list(parts, this.part));
  }

  regex(n) {
    const raw = this.raw(n);
    const end = raw.lastIndexOf("/");
    return this.node(regexKind(raw.slice(1, end), raw.slice(end + 1)), n);
  }

  // expressions

  property(n) {
    switch (n.kind) {
      case K.SpreadAssignment: return this.node("SpreadElement", n, this.expression(n.expression));
      case K.PropertyAssignment: return this.node("KeyValueProp", n, this.key(n.name), this.expression(n.initializer));
      case K.ShorthandPropertyAssignment: {
        if (!n.objectAssignmentInitializer) return this.ident(n.name);
        return this.node("AssignProp", n, this.ident(n.name), this.expression(n.objectAssignmentInitializer));
      }
      case K.MethodDeclaration: return this.node("MethodProp", n, this.key(n.name), this.functionFrom(this.start(n), n));
      case K.GetAccessor: return this.node("GetterProp", n, this.key(n.name), this.annotation(n.type), this.statement(n.body));
      case K.SetAccessor: {
        const isThis = n.parameters[0].name.text === "this";
        const first = isThis ? this.pattern(n.parameters[0]) : absent;
        return this.node("SetterProp", n, this.key(n.name), first, this.pattern(n.parameters.at(-1)), this.statement(n.body));
      }
      default: throw new Error(`no tree for ${K[n.kind]}`);
    }
  }

  /** A link, which stands in an optional chain where a link before it has `?.`. */
  linked(n, kind, ...children) {
    if (!(n.flags & ts.NodeFlags.OptionalChain)) return this.node(kind, n, ...children);
    const inner = this.node(kind === "CallExpr" ? "OptCall" : kind, n, ...children);
    return this.node(kindOf("OptChainExpr", { optional: n.questionDotToken !== undefined }), n, inner);
  }

  element(n) {
    const from = n.questionDotToken ? n.questionDotToken.end : n.expression.end;
    const prop = this.at("ComputedPropName", this.next(from), n.end, this.expression(n.argumentExpression));
    const kind = n.expression.kind === K.SuperKeyword ? "SuperPropExpr" : "MemberExpr";
    return this.linked(n, kind, this.expression(n.expression), prop);
  }

  member(n) {
    const kind = n.expression.kind === K.SuperKeyword ? "SuperPropExpr" : "MemberExpr";
    return this.linked(n, kind, this.expression(n.expression), this.key(n.name));
  }

  arguments(nodes) {
    return nodes ? this.list(nodes, this.expression) : absent;
  }

  sequence(n) {
    const isComma = n.left.kind === K.BinaryExpression && n.left.operatorToken.kind === K.CommaToken;
    return [...(isComma ? this.sequence(n.left) : [this.expression(n.left)]), this.expression(n.right)];
  }

  binary(n) {
    const sign = ts.tokenToString(n.operatorToken.kind);
    if (sign === ",") return this.node("SeqExpr", n, ...this.sequence(n));
    const kind = sign in assigns ? kindOf("AssignExpr", { op: assigns[sign] }) : kindOf("BinExpr", { op: binaries[sign] });
    return this.node(kind, n, sign === "=" ? this.target(n.left) : this.expression(n.left), this.expression(n.right));
  }

  wrapped(n, name) {
    if (n.type.getText(this.file) === "const") return this.node("TsConstAssertion", n, this.expression(n.expression));
    return this.node(name, n, this.expression(n.expression), this.type(n.type));
  }

  unary(op, n, operand) {
    return this.node(kindOf("UnaryExpr", { op: unaries[op] ?? op }), n, this.expression(operand));
  }

  prefixed(n) {
    if (n.operator in prefixes) return this.unary(prefixes[n.operator], n, n.operand);
    return this.update(n, true);
  }

  update(n, prefix) {
    const kind = kindOf("UpdateExpr", { op: updates[ts.tokenToString(n.operator)], prefix });
    return this.node(kind, n, this.expression(n.operand));
  }

  arrow(n) {
    const kind = kindOf("ArrowExpr", { is_async: this.has(n, K.AsyncKeyword), is_generator: false });
    const body = n.body.kind === K.Block ? this.statement(n.body) : this.expression(n.body);
    return this.node(kind, n, this.list(n.parameters, this.pattern), body, this.typeParameters(n), this.annotation(n.type));
  }

  literal(n) {
    switch (n.kind) {
      case K.NumericLiteral: return this.node(numberKind(this.raw(n)), n);
      case K.BigIntLiteral: return this.node(bigIntKind(this.raw(n)), n);
      case K.StringLiteral: return this.node(stringKind(n.text, this.raw(n)), n);
      case K.RegularExpressionLiteral: return this.regex(n);
      case K.NoSubstitutionTemplateLiteral:
      case K.TemplateExpression: return this.template(n);
      case K.NullKeyword: return this.node("Null", n);
      case K.TrueKeyword: return this.node(kindOf("Bool", { value: true }), n);
      case K.FalseKeyword: return this.node(kindOf("Bool", { value: false }), n);
      default: throw new Error(`no tree for ${K[n.kind]}`);
    }
  }

  expression(n) {
    switch (n.kind) {
      case K.Identifier: return this.ident(n);
      case K.PrivateIdentifier: return this.key(n);
      case K.ThisKeyword: return this.node("ThisExpr", n);
      case K.SuperKeyword: return this.node("Super", n);
      case K.ImportKeyword: return this.node("Import", n);
      case K.OmittedExpression: return absent;
      case K.ArrayLiteralExpression: return this.node("ArrayLit", n, this.list(n.elements, this.expression));
      case K.ObjectLiteralExpression: return this.node("ObjectLit", n, this.list(n.properties, this.property));
      case K.SpreadElement: return this.node("SpreadElement", n, this.expression(n.expression));
      case K.FunctionExpression: return this.node("FnExpr", n, this.ident(n.name), this.functionFrom(this.start(n), n));
      case K.ArrowFunction: return this.arrow(n);
      case K.ClassExpression: return this.node("ClassExpr", n, this.ident(n.name), this.classFrom(this.start(n), n));
      case K.DeleteExpression:
      case K.TypeOfExpression:
      case K.VoidExpression: return this.unary(keywordOperators[n.kind], n, n.expression);
      case K.AwaitExpression: return this.node("AwaitExpr", n, this.expression(n.expression));
      case K.PrefixUnaryExpression: return this.prefixed(n);
      case K.PostfixUnaryExpression: return this.update(n, false);
      case K.BinaryExpression: return this.binary(n);
      case K.ConditionalExpression:
        return this.node("CondExpr", n, this.expression(n.condition), this.expression(n.whenTrue), this.expression(n.whenFalse));
      case K.PropertyAccessExpression: return this.member(n);
      case K.ElementAccessExpression: return this.element(n);
      case K.CallExpression:
        return this.linked(n, "CallExpr", this.expression(n.expression), this.arguments(n.arguments), this.typeArguments(n));
      case K.NewExpression:
        return this.node("NewExpr", n, this.expression(n.expression), this.arguments(n.arguments), this.typeArguments(n));
      case K.TaggedTemplateExpression:
        return this.node("TaggedTpl", n, this.expression(n.tag), this.typeArguments(n), this.template(n.template));
      case K.YieldExpression:
        return this.node(kindOf("YieldExpr", { delegate: n.asteriskToken !== undefined }), n, this.maybe(n.expression));
      case K.MetaProperty:
        return this.node(kindOf("MetaPropExpr", { kind: n.keywordToken === K.NewKeyword ? "NewTarget" : "ImportMeta" }), n);
      case K.ParenthesizedExpression: return this.node("ParenExpr", n, this.expression(n.expression));
      case K.TypeAssertionExpression: return this.wrapped(n, "TsTypeAssertion");
      case K.AsExpression: return this.wrapped(n, "TsAsExpr");
      case K.SatisfiesExpression: return this.wrapped(n, "TsSatisfiesExpr");
      case K.NonNullExpression: return this.node("TsNonNullExpr", n, this.expression(n.expression));
      case K.ExpressionWithTypeArguments: return this.node("TsInstantiation", n, this.expression(n.expression), this.typeArguments(n));
      default: return this.literal(n);
    }
  }

  // assigned patterns

  /** The left of an assignment: a literal is a pattern in a finished tree. */
  target(n) {
    const isLiteral = n.kind === K.ArrayLiteralExpression || n.kind === K.ObjectLiteralExpression;
    return this.finished && isLiteral ? this.assigned(n) : this.expression(n);
  }

  /** What stands before `in` or `of`. */
  head(n) {
    return this.finished && n.kind !== K.VariableDeclarationList ? this.assigned(n) : this.initial(n);
  }

  /** An expression as a part of an assigned pattern. */
  assigned(n) {
    switch (n.kind) {
      case K.OmittedExpression: return absent;
      case K.Identifier: return this.node("BindingIdent", n, this.ident(n), absent);
      case K.ArrayLiteralExpression:
        return this.node(kindOf("ArrayPat", { optional: false }), n, this.list(n.elements, this.assigned), absent);
      case K.ObjectLiteralExpression:
        return this.node(kindOf("ObjectPat", { optional: false }), n, this.list(n.properties, this.assignedProperty), absent);
      case K.SpreadElement:
      case K.SpreadAssignment: return this.node("RestPat", n, this.assigned(n.expression), absent);
      case K.BinaryExpression:
        if (n.operatorToken.kind !== K.EqualsToken) return this.expression(n);
        return this.node("AssignPat", n, this.assigned(n.left), this.expression(n.right));
      default: return this.expression(n);
    }
  }

  assignedProperty(n) {
    switch (n.kind) {
      case K.PropertyAssignment: return this.node("KeyValuePatProp", n, this.key(n.name), this.assigned(n.initializer));
      case K.ShorthandPropertyAssignment:
        return this.node("AssignPatProp", n, this.assigned(n.name), this.maybe(n.objectAssignmentInitializer));
      case K.SpreadAssignment: return this.assigned(n);
      default: return this.property(n);
    }
  }

  // declared patterns

  bindingName(n) {
    switch (n.kind) {
      case K.ObjectBindingPattern:
        return [kindOf("ObjectPat", { optional: false }), this.list(n.elements, this.patternProperty)];
      case K.ArrayBindingPattern: return [kindOf("ArrayPat", { optional: false }), this.list(n.elements, this.patternElement)];
      default: return ["BindingIdent", this.ident(n)];
    }
  }

  /** A declared pattern without a type. */
  named(n) {
    return this.node(this.bindingName(n)[0], n, this.bindingName(n)[1], absent);
  }

  withDefault(n, pattern) {
    return n.initializer ? this.node("AssignPat", n, pattern, this.expression(n.initializer)) : pattern;
  }

  patternElement(n) {
    if (n.kind === K.OmittedExpression) return absent;
    if (n.dotDotDotToken) return this.node("RestPat", n, this.named(n.name), absent);
    return this.withDefault(n, this.named(n.name));
  }

  patternProperty(n) {
    if (n.dotDotDotToken) return this.node("RestPat", n, this.named(n.name), absent);
    if (!n.propertyName) return this.node("AssignPatProp", n, this.named(n.name), this.maybe(n.initializer));
    const value = this.named(n.name);
    const lo = this.start(n.name);
    const pattern = n.initializer ? this.at("AssignPat", lo, n.end, value, this.expression(n.initializer)) : value;
    return this.node("KeyValuePatProp", n, this.key(n.propertyName), pattern);
  }

  /** The pattern of a parameter with its question mark, its type and its default. */
  pattern(n) {
    const lo = n.dotDotDotToken ? this.start(n.dotDotDotToken) : this.start(n.name);
    const hi = (n.type ?? n.questionToken ?? n.name).end;
    const pattern = this.annotatedPattern(n, lo, hi);
    return n.initializer ? this.at("AssignPat", lo, n.end, pattern, this.expression(n.initializer)) : pattern;
  }

  annotatedPattern(n, lo, hi) {
    if (n.dotDotDotToken) return this.at("RestPat", lo, hi, this.named(n.name), this.annotation(n.type));
    const optional = n.questionToken !== undefined;
    const [kind, inside] = this.bindingName(n.name);
    if (kind === "BindingIdent") return this.at(kind, lo, hi, this.ident(n.name, optional), this.annotation(n.type));
    return this.at(kind.replace("false", String(optional)), lo, hi, inside, this.annotation(n.type));
  }

  parameter(n) {
    const pattern = this.pattern(n);
    if (!n.modifiers?.length) return this.at("Param", this.start(n), n.end, pattern);
    const words = [this.accessibility(n), this.has(n, K.OverrideKeyword) && "override", this.has(n, K.ReadonlyKeyword) && "readonly"];
    return this.node(worded("TsParamProp", ...words), n, pattern);
  }
}

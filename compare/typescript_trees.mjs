// TypeScript modules as trees in the notation of compare/notation.mjs, by the compiler's parser: Debian's node-typescript, or the one
// that the variable TYPESCRIPT names. What types say is not kept. Raw and finished trees are as in compare/acorn_trees.mjs.
import { absent, kindOf, list, quoted, stringKind, variables, worded } from "./notation.mjs";
import { Expressions, ts } from "./typescript_expressions.mjs";

const K = ts.SyntaxKind;
const asModule = {
  languageVersion: ts.ScriptTarget.Latest,
  setExternalModuleIndicator: (file) => { file.externalModuleIndicator = true; },
};

const parsed = (text, name) => ts.createSourceFile(name, text, asModule, true, ts.ScriptKind.TS);

/** What the checker says of a text that is against the grammar or against strict code, though it was parsed. */
export function grammarErrors(text) {
  const file = parsed(text, "m.ts");
  const host = {
    getSourceFile: (name) => (name === "m.ts" ? file : undefined), writeFile: () => {}, getDefaultLibFileName: () => "lib.d.ts",
    useCaseSensitiveFileNames: () => true, getCanonicalFileName: (name) => name, getCurrentDirectory: () => "", getNewLine: () => "\n",
    fileExists: (name) => name === "m.ts", readFile: () => undefined,
  };
  const options = { noLib: true, noResolve: true, target: ts.ScriptTarget.Latest, module: ts.ModuleKind.ESNext, moduleDetection: "force" };
  const found = ts.createProgram(["m.ts"], options, host).getSemanticDiagnostics(file);
  return found.filter((d) => d.code < 2000 || d.code >= 17000).map((d) => ts.flattenDiagnosticMessageText(d.messageText, " "));
}

/** The tree of a module, or an error with the compiler's first message. */
export function typescriptTree(text, { finished = false, name = "m.ts" } = {}) {
  const file = parsed(text, name);
  if (file.parseDiagnostics.length) {
    const [first] = file.parseDiagnostics;
    throw new SyntaxError(`${ts.flattenDiagnosticMessageText(first.messageText, " ")} (${first.start})`);
  }
  return new Trees(text, file, finished).module();
}

class Trees extends Expressions {
  module() {
    const { statements } = this.file;
    const hashbang = /^#!([^\n\r\u2028\u2029]*)/.exec(this.text);
    const start = hashbang ? 0 : statements.length ? this.start(statements[0]) : this.text.length;
    const kind = `Module ${hashbang ? quoted(hashbang[1]) : "none"}`;
    return this.at(kind, start, this.text.length, this.list(statements, this.statement));
  }

  // functions and classes

  /** What functions have in common, from a place on. */
  functionFrom(start, n) {
    const kind = kindOf("Function", { is_generator: n.asteriskToken !== undefined, is_async: this.has(n, K.AsyncKeyword) });
    const body = n.body ? this.statement(n.body) : absent;
    return this.at(kind, start, n.end, this.list(n.parameters, this.parameter), body, this.typeParameters(n), this.annotation(n.type));
  }

  classFrom(start, n) {
    const clauses = n.heritageClauses ?? [];
    const heritage = clauses.find((c) => c.token === K.ExtendsKeyword)?.types[0];
    const implemented = clauses.find((c) => c.token === K.ImplementsKeyword)?.types ?? [];
    return this.at(
      kindOf("Class", { is_abstract: this.has(n, K.AbstractKeyword) }), start, n.end, heritage ? this.expression(heritage.expression) : absent,
      this.list(n.members, this.classMember), this.typeParameters(n), heritage ? this.typeArguments(heritage) : absent,
      this.list(implemented, this.type),
    );
  }

  classMember(n) {
    switch (n.kind) {
      case K.SemicolonClassElement: return this.node("EmptyStmt", n);
      case K.ClassStaticBlockDeclaration: return this.node("StaticBlock", n, this.statement(n.body));
      case K.IndexSignature: {
        const data = { readonly: this.has(n, K.ReadonlyKeyword), is_static: this.has(n, K.StaticKeyword) };
        return this.node(kindOf("TsIndexSignature", data), n);
      }
      case K.PropertyDeclaration: return this.field(n);
      case K.Constructor: return this.constructorMember(n);
      case K.MethodDeclaration: return this.method(n, "Method");
      case K.GetAccessor: return this.method(n, "Getter");
      case K.SetAccessor: return this.method(n, "Setter");
      default: throw new Error(`no tree for ${K[n.kind]}`);
    }
  }

  field(n) {
    const kind = worded(
      n.name.kind === K.PrivateIdentifier ? "PrivateProp" : "ClassProp", ...this.memberModifiers(n),
      this.has(n, K.ReadonlyKeyword) && "readonly", this.has(n, K.DeclareKeyword) && "declare", n.exclamationToken && "definite",
    );
    return this.node(kind, n, this.key(n.name), this.maybe(n.initializer), this.annotation(n.type));
  }

  /** A method's function begins behind the modifiers, but for `async`. */
  method(n, sort) {
    const kind = worded(n.name.kind === K.PrivateIdentifier ? "PrivateMethod" : "ClassMethod", sort, ...this.memberModifiers(n));
    const kinds = (n.modifiers ?? []).map((m) => m.kind).filter((k) => k !== K.AsyncKeyword);
    return this.node(kind, n, this.key(n.name), this.functionFrom(this.startBehind(n, kinds), n));
  }

  constructorMember(n) {
    const lo = this.next(n.modifiers?.at(-1)?.end ?? n.pos);
    const hi = lo + /^('[^']*'|"[^"]*"|\w+)/.exec(this.text.slice(lo))[0].length;
    const raw = this.text.slice(lo, hi);
    const key = this.at(raw === "constructor" ? `IdentName ${quoted(raw)}` : stringKind("constructor", raw), lo, hi);
    const body = n.body ? this.statement(n.body) : absent;
    return this.node(worded("Constructor", this.accessibility(n)), n, key, this.list(n.parameters, this.parameter), body);
  }

  // statements

  block(n) {
    return this.node("BlockStmt", n, this.list(n.statements, this.statement));
  }

  /** Declarations stand from a place to the end of a node. */
  variables(start, n, declarations, declare) {
    const word = variables[ts.isLet(declarations) ? "let" : ts.isVarConst(declarations) ? "const" : "var"];
    return this.at(kindOf("VarDecl", { kind: word, declare }), start, n.end, this.list(declarations.declarations, this.declarator));
  }

  declarator(n) {
    const definite = n.exclamationToken !== undefined;
    const pattern = this.annotatedPattern({ name: n.name, type: n.type }, this.start(n.name), (n.type ?? n.name).end);
    return this.node(kindOf("VarDeclarator", { definite }), n, pattern, this.maybe(n.initializer));
  }

  initial(n) {
    if (!n) return absent;
    return n.kind === K.VariableDeclarationList ? this.variables(this.start(n), n, n, false) : this.expression(n);
  }

  statement(n) {
    switch (n.kind) {
      case K.Block: return this.block(n);
      case K.EmptyStatement: return this.node("EmptyStmt", n);
      case K.DebuggerStatement: return this.node("DebuggerStmt", n);
      case K.ExpressionStatement: return this.node("ExprStmt", n, this.expression(n.expression));
      case K.IfStatement: {
        const alt = n.elseStatement ? this.statement(n.elseStatement) : absent;
        return this.node("IfStmt", n, this.expression(n.expression), this.statement(n.thenStatement), alt);
      }
      case K.WhileStatement: return this.node("WhileStmt", n, this.expression(n.expression), this.statement(n.statement));
      case K.DoStatement: return this.node("DoWhileStmt", n, this.expression(n.expression), this.statement(n.statement));
      case K.ForStatement:
        return this.node(
          "ForStmt", n, this.initial(n.initializer), this.maybe(n.condition), this.maybe(n.incrementor), this.statement(n.statement),
        );
      case K.ForInStatement:
        return this.node("ForInStmt", n, this.head(n.initializer), this.expression(n.expression), this.statement(n.statement));
      case K.ForOfStatement: {
        const kind = kindOf("ForOfStmt", { is_await: n.awaitModifier !== undefined });
        return this.node(kind, n, this.head(n.initializer), this.expression(n.expression), this.statement(n.statement));
      }
      case K.SwitchStatement:
        return this.node("SwitchStmt", n, this.expression(n.expression), this.list(n.caseBlock.clauses, this.switchCase));
      case K.LabeledStatement: return this.node("LabeledStmt", n, this.ident(n.label), this.statement(n.statement));
      case K.BreakStatement: return this.node("BreakStmt", n, this.ident(n.label));
      case K.ContinueStatement: return this.node("ContinueStmt", n, this.ident(n.label));
      case K.ReturnStatement: return this.node("ReturnStmt", n, this.maybe(n.expression));
      case K.ThrowStatement: return this.node("ThrowStmt", n, this.expression(n.expression));
      case K.TryStatement: return this.tryStatement(n);
      default: return this.item(n);
    }
  }

  switchCase(n) {
    return this.node("SwitchCase", n, this.maybe(n.expression), this.list(n.statements, this.statement));
  }

  tryStatement(n) {
    const { catchClause: c, finallyBlock } = n;
    const parameter = c?.variableDeclaration;
    const pattern = parameter
      ? this.annotatedPattern({ name: parameter.name, type: parameter.type }, this.start(parameter), parameter.end) : absent;
    const handler = c ? this.node("CatchClause", c, pattern, this.block(c.block)) : absent;
    return this.node("TryStmt", n, this.block(n.tryBlock), handler, finallyBlock ? this.block(finallyBlock) : absent);
  }

  // declarations, imports and exports

  /** A declaration, perhaps behind `export` or `export default`. */
  item(n) {
    if (!this.has(n, K.ExportKeyword) || n.kind === K.ImportEqualsDeclaration) return this.declaration(n);
    if (!this.has(n, K.DefaultKeyword)) return this.node("ExportDecl", n, this.declaration(n));
    return this.node("ExportDefaultDecl", n, this.defaultDeclaration(n));
  }

  defaultDeclaration(n) {
    const start = this.startBehind(n, [K.ExportKeyword, K.DefaultKeyword]);
    if (n.kind === K.FunctionDeclaration) return this.at("FnExpr", start, n.end, this.ident(n.name), this.functionFrom(start, n));
    if (n.kind === K.ClassDeclaration) return this.at("ClassExpr", start, n.end, this.ident(n.name), this.classFrom(start, n));
    return this.declaration(n);
  }

  declaration(n) {
    const declare = this.has(n, K.DeclareKeyword);
    const outer = this.startBehind(n, [K.ExportKeyword, K.DefaultKeyword]);
    const inner = this.startBehind(n, [K.ExportKeyword, K.DefaultKeyword, K.DeclareKeyword]);
    switch (n.kind) {
      case K.VariableStatement: return this.variables(outer, n, n.declarationList, declare);
      case K.FunctionDeclaration:
        return this.at(kindOf("FnDecl", { declare }), outer, n.end, this.ident(n.name), this.functionFrom(inner, n));
      case K.ClassDeclaration:
        return this.at(kindOf("ClassDecl", { declare }), outer, n.end, this.ident(n.name), this.classFrom(inner, n));
      case K.InterfaceDeclaration: return this.at(kindOf("TsInterfaceDecl", { declare }), outer, n.end, this.ident(n.name));
      case K.TypeAliasDeclaration: return this.at(kindOf("TsTypeAliasDecl", { declare }), outer, n.end, this.ident(n.name));
      case K.EnumDeclaration: {
        const kind = kindOf("TsEnumDecl", { declare, is_const: this.has(n, K.ConstKeyword) });
        return this.at(kind, outer, n.end, this.ident(n.name), this.list(n.members, this.enumMember));
      }
      case K.ModuleDeclaration: {
        const global = (n.flags & ts.NodeFlags.GlobalAugmentation) !== 0;
        return this.at(kindOf("TsModuleDecl", { declare, global }), outer, n.end, this.exportName(n.name), this.namespaceBody(n.body));
      }
      default: return this.moduleDeclaration(n);
    }
  }

  enumMember(n) {
    const name = n.name.kind === K.ComputedPropertyName ? n.name.expression : n.name;
    return this.node("TsEnumMember", n, this.exportName(name), this.maybe(n.initializer));
  }

  namespaceBody(n) {
    if (!n) return absent;
    if (n.kind === K.ModuleBlock) return this.node("TsModuleBlock", n, this.list(n.statements, this.statement));
    const kind = kindOf("TsNamespaceDecl", { declare: false, global: false });
    return this.at(kind, this.start(n.name), n.end, this.ident(n.name), this.namespaceBody(n.body));
  }

  entity(n) {
    if (n.kind === K.ExternalModuleReference) return this.node("TsExternalModuleRef", n, this.expression(n.expression));
    if (n.kind === K.QualifiedName) return this.node("TsQualifiedName", n, this.entity(n.left), this.key(n.right));
    return this.ident(n);
  }

  importSpecifiers(clause) {
    if (!clause) return [];
    const first = clause.name ? [this.node("ImportDefaultSpecifier", clause.name, this.ident(clause.name))] : [];
    const bindings = clause.namedBindings;
    if (!bindings) return first;
    if (bindings.kind === K.NamespaceImport) return [...first, this.node("ImportStarAsSpecifier", bindings, this.ident(bindings.name))];
    return [...first, ...bindings.elements.map((s) => this.importSpecifier(s))];
  }

  importSpecifier(n) {
    const kind = kindOf("ImportNamedSpecifier", { is_type_only: n.isTypeOnly });
    return this.node(kind, n, this.ident(n.name), n.propertyName ? this.exportName(n.propertyName) : absent);
  }

  exportSpecifier(n) {
    const kind = kindOf("ExportNamedSpecifier", { is_type_only: n.isTypeOnly });
    if (!n.propertyName) return this.node(kind, n, this.exportName(n.name), absent);
    return this.node(kind, n, this.exportName(n.propertyName), this.exportName(n.name));
  }

  exports(n) {
    const source = n.moduleSpecifier ? this.expression(n.moduleSpecifier) : absent;
    const data = { type_only: n.isTypeOnly };
    if (!n.exportClause) return this.node(kindOf("ExportAll", data), n, source, absent);
    const specifiers = n.exportClause.kind === K.NamespaceExport
      ? [this.node("ExportNamespaceSpecifier", n.exportClause, this.exportName(n.exportClause.name))]
      : n.exportClause.elements.map((s) => this.exportSpecifier(s));
    return this.node(kindOf("NamedExport", data), n, list(specifiers), source, absent);
  }

  moduleDeclaration(n) {
    switch (n.kind) {
      case K.ImportDeclaration: {
        const kind = kindOf("ImportDecl", { type_only: n.importClause?.isTypeOnly ?? false });
        return this.node(kind, n, list(this.importSpecifiers(n.importClause)), this.expression(n.moduleSpecifier), absent);
      }
      case K.ImportEqualsDeclaration: {
        const kind = kindOf("TsImportEqualsDecl", { is_export: this.has(n, K.ExportKeyword), is_type_only: n.isTypeOnly });
        return this.node(kind, n, this.ident(n.name), this.entity(n.moduleReference));
      }
      case K.ExportAssignment:
        return this.node(n.isExportEquals ? "TsExportAssignment" : "ExportDefaultExpr", n, this.expression(n.expression));
      case K.NamespaceExportDeclaration: return this.node("TsNamespaceExportDecl", n, this.ident(n.name));
      case K.ExportDeclaration: return this.exports(n);
      default: throw new Error(`no tree for ${K[n.kind]}`);
    }
  }
}

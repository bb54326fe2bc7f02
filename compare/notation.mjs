// The notation of trees in which crates/tree_notation writes them: a kind with its data, its span in bytes, and its children in
// parentheses; `-` for a missing child, brackets for a list.

/** Where each UTF-16 unit of a text stands in its UTF-8 bytes. */
export function placesOf(text) {
  if (/^[\0-\x7f]*$/.test(text)) return (at) => at;
  const places = new Uint32Array(text.length + 1);
  let place = 0;
  for (let at = 0; at < text.length; at++) {
    places[at] = place;
    const unit = text.charCodeAt(at);
    if (unit < 0x80) place += 1;
    else if (unit < 0x800) place += 2;
    else if (unit >= 0xd800 && unit < 0xe000) place += 2;
    else place += 3;
  }
  places[text.length] = place;
  return (at) => places[at];
}

const escapes = { "\n": "\\n", "\r": "\\r", '"': '\\"', "\\": "\\\\" };

/** A text in quotes. */
export const quoted = (text) => `"${text.replace(/[\n\r"\\]/g, (c) => escapes[c])}"`;

export const absent = "-";
export const list = (items) => `[${items.join(" ")}]`;

/** The writer of nodes of one text. */
export function writer(text) {
  const place = placesOf(text);
  return (kind, lo, hi, ...children) => `${kind} ${place(lo)}..${place(hi)}${children.length ? `(${children.join(" ")})` : ""}`;
}

/** A kind with data, as `VarDecl { kind: Let, declare: false }`. */
export const kindOf = (name, data) => `${name} { ${Object.entries(data).map(([key, value]) => `${key}: ${value}`).join(", ")} }`;

/** A kind with the words that hold. */
export const worded = (name, ...words) => [name, ...words.filter((word) => word)].join(" ");

export const binaries = {
  "==": "EqEq", "!=": "NotEq", "===": "EqEqEq", "!==": "NotEqEq", "<": "Lt", "<=": "LtEq", ">": "Gt", ">=": "GtEq",
  "<<": "LShift", ">>": "RShift", ">>>": "ZeroFillRShift", "+": "Add", "-": "Sub", "*": "Mul", "/": "Div", "%": "Mod",
  "|": "BitOr", "^": "BitXor", "&": "BitAnd", "||": "LogicalOr", "&&": "LogicalAnd", in: "In", instanceof: "InstanceOf",
  "**": "Exp", "??": "NullishCoalescing",
};
export const assigns = {
  "=": "Assign", "+=": "AddAssign", "-=": "SubAssign", "*=": "MulAssign", "/=": "DivAssign", "%=": "ModAssign",
  "<<=": "LShiftAssign", ">>=": "RShiftAssign", ">>>=": "ZeroFillRShiftAssign", "|=": "BitOrAssign", "^=": "BitXorAssign",
  "&=": "BitAndAssign", "**=": "ExpAssign", "&&=": "AndAssign", "||=": "OrAssign", "??=": "NullishAssign",
};
export const unaries = { "-": "Minus", "+": "Plus", "!": "Bang", "~": "Tilde", typeof: "TypeOf", void: "Void", delete: "Delete" };
export const updates = { "++": "PlusPlus", "--": "MinusMinus" };
export const variables = { var: "Var", let: "Let", const: "Const" };
export const methods = { method: "Method", get: "Getter", set: "Setter" };

/** The exact value of a numeral where it is a whole number within 2^53 - 1 (ECMAScript, 12.9.3). */
function exactValue(raw) {
  const text = raw.replaceAll("_", "");
  if (/^0[xob]/i.test(text)) return BigInt(text);
  const [, whole, fraction = "", exponent = "0"] = /^(\d*)\.?(\d*)?(?:e([+-]?\d+))?$/i.exec(text);
  const digits = (whole + fraction).replace(/^0+/, "");
  if (digits === "") return 0n;
  const kept = digits.replace(/0+$/, "");
  const shift = Number(exponent) - fraction.length + digits.length - kept.length;
  if (shift < 0 || kept.length + shift > 16) return null;
  return BigInt(kept) * 10n ** BigInt(shift);
}

/** The kind of a numeral. */
export function numberKind(raw) {
  const value = exactValue(raw);
  const shown = value !== null && value <= BigInt(Number.MAX_SAFE_INTEGER) ? value : "none";
  return `Number ${shown} ${quoted(raw)}`;
}

export const bigIntKind = (raw) => `BigInt ${quoted(raw.slice(0, -1).replaceAll("_", ""))} ${quoted(raw)}`;
export const stringKind = (value, raw) => `Str ${quoted(value)} ${quoted(raw)}`;
export const regexKind = (body, flags) => `Regex ${quoted(body)} ${quoted(flags)}`;
export const partKind = (raw, cooked, tail) => worded("TplElement", quoted(raw), cooked === null ? "none" : quoted(cooked), tail && "tail");

/** The lines of two trees from the first place where they differ. */
export function firstDifference(ours, theirs) {
  let at = 0;
  while (at < ours.length && ours[at] === theirs[at]) at++;
  const from = Math.max(0, at - 160);
  return { ours: ours.slice(from, at + 120), theirs: theirs.slice(from, at + 120) };
}

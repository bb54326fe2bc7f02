// What the comparisons of real files share: which files there are, the trees of acorn as plain data, and counts.
import { lstatSync, readdirSync } from "node:fs";
import { join } from "node:path";

/** The files below a path whose names meet a test, in the order of their names. */
export function* filesIn(path, isWanted) {
  const stat = lstatSync(path);
  if (stat.isFile() && isWanted.test(path)) yield path;
  if (stat.isDirectory()) for (const name of readdirSync(path).sort()) yield* filesIn(join(path, name), isWanted);
}

/**
 * A parsed value as plain data: without places, source texts of literals and parentheses, without the keys in `left`, and with what `inner` makes
 * of the value of a key of a node.
 */
export function plain(value, left = new Set(), inner = (node, key) => node[key]) {
  if (Array.isArray(value)) return value.map((item) => plain(item, left, inner));
  if (typeof value === "bigint") return `${value}n`;
  if (value instanceof RegExp) return null;
  if (value === null || typeof value !== "object") return typeof value === "number" ? String(value) : value;
  if (value.type === "ParenthesizedExpression") return plain(value.expression, left, inner);
  const isKept = (key) => key !== "start" && key !== "end" && !left.has(key) && !(key === "raw" && value.type === "Literal");
  return Object.fromEntries(Object.keys(value).filter(isKept).map((key) => [key, plain(inner(value, key), left, inner)]));
}

/** Counts by name, with the first examples of each, at most so many. */
export function counting(shown) {
  const counts = {};
  const examples = new Map();
  const count = (what, example) => {
    counts[what] = (counts[what] ?? 0) + 1;
    if (!examples.has(what)) examples.set(what, []);
    if (example && examples.get(what).length < shown) examples.get(what).push(example);
  };
  return { counts, examples, count };
}

// The built program of crates/tree_notation, which answers many texts at once.
import { spawnSync } from "node:child_process";
import { fileURLToPath } from "node:url";

export const separator = "\n=-=-=\n";
const program = process.env.TREE_NOTATION ?? fileURLToPath(new URL("../crates/tree_notation/out/tree_notation", import.meta.url));

/** Whether an answer is a refusal. */
export const isRefusal = (answer) => /^(Syntax|TooDeep) at \d+$/.test(answer);

/** The program's line for each case, which has a mode, a number of levels and a text. A large stack is asked for. */
export function answers(cases) {
  const input = cases.map((c) => `${c.mode} ${c.levels}\n${c.text}`).join(separator);
  const run = spawnSync("bash", ["-c", 'ulimit -s unlimited; exec "$0"', program], { input, maxBuffer: 2 ** 31 - 1 });
  if (run.error || run.status !== 0) throw new Error(`the program ended with ${run.status ?? run.signal}: ${run.error ?? run.stderr}`);
  return run.stdout.toString().split("\n").slice(0, -1);
}

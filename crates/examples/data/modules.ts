// Modules: of an import only what is used as a value stays, and types are not exported. `log` of this module gets another text, since the
// `log` in the block is that of the host; other modules still import it by its name.
import { parse, type Options } from "./parse";
import type { Level } from "./level";
import * as files from "./files";
import "./setup";

export interface Entry { level: Level; text: string }
export type { Options };

{
    declare const log: (text: string) => void;
    log("no `log` of this module");
}

const log = (entry: Entry): void => files.append(parse(entry.text) as string);

export { log };
export const levels: Level[] = [];
export default class Logger<T extends Entry> {
    constructor(entries: T[]) { entries.forEach(log); }
}
export * from "./format";

// A host for one run of a module in node: its values are functions that record their uses and take the
// next answer. What is observed is written as the definitions of crates/ecma_runs write it.
// Needs --experimental-vm-modules.
import vm from "node:vm";

/** The bytes of a text: `codes` gives those of ASCII. */
export function bytes(text) {
  if (/^[\x20-\x7e]*$/.test(text)) return `codes ${JSON.stringify(text)}`;
  return [...Buffer.from(text, "utf8"), "[]"].join(" ∷ ");
}

/** A number of the script or of an observation. */
function shownNumber(n) {
  if (Object.is(n, -0)) return "js_number.NegZero";
  if (Number.isNaN(n)) return "js_number.NaN";
  if (n === Infinity) return "js_number.Infinity";
  if (n === -Infinity) return "js_number.NegInfinity";
  if (!Number.isSafeInteger(n)) throw new Error(`outside the number domain: ${n}`);
  return n < 0 ? `js_number.Whole (negsuc ${-n - 1})` : `js_number.Whole (pos ${n})`;
}

/** One run: `body` is the module's source, `answers` and `actions` as the facts give them. */
export async function observe({ body, answers, actions, frees, imports, metaUrl }) {
  const events = [];
  const handles = [];
  const left = [...answers];
  const hosts = new Map();
  let ended = null;
  const spent = { spent: true };

  const numberOf = new Map();
  function host(number) {
    if (!hosts.has(number)) {
      const use = (event) => {
        if (ended) throw spent;
        events.push(event);
        if (left.length === 0) {
          ended = "AnswersSpent";
          throw spent;
        }
        const [how, value] = left.shift();
        const answer = taken(value);
        if (how === "Throw") throw answer;
        return answer;
      };
      const proxy = new Proxy(function () {}, {
        get: (_, k) => (typeof k === "symbol" ? undefined : use(`HostGet ${number} (${bytes(k)})`)),
        set: (_, k, v) => (use(`HostSet ${number} (${bytes(k)}) ${inner(shown(v))}`), true),
        apply: (_, self, args) => use(`HostCall ${number} ${inner(shown(self))} ${list(args.map(shown))}`),
        construct: (_, args) => use(`HostNew ${number} ${list(args.map(shown))}`),
      });
      hosts.set(number, proxy);
      numberOf.set(proxy, number);
    }
    return hosts.get(number);
  }

  const context = vm.createContext({});
  const errors = vm.runInContext("({ ReferenceError, TypeError, RangeError })", context);

  /** A value that the script gives. */
  function taken(value) {
    if (value === undefined || value === null) return value;
    if (typeof value !== "object") return value;
    if ("host" in value) return host(value.host);
    if ("handle" in value) return handles[value.handle];
    if ("error" in value) return new errors[value.error]();
    throw new Error(`no value of a script: ${JSON.stringify(value)}`);
  }

  /** A value as the host sees it. */
  function shown(v) {
    if (v === undefined) return "shown.Undefined";
    if (v === null) return "shown.Null";
    if (typeof v === "boolean") return `shown.Bool ${v}`;
    if (typeof v === "number") return `shown.Num (${shownNumber(v)})`;
    if (typeof v === "string") return `shown.Text (${bytes(v)})`;
    if (numberOf.has(v)) return `shown.Host ${numberOf.get(v)}`;
    if (v instanceof errors.ReferenceError) return "shown.Error error.Reference";
    if (v instanceof errors.TypeError || v instanceof TypeError) return "shown.Error error.Kind";
    if (v instanceof errors.RangeError) return "shown.Error error.Range";
    if (!handles.includes(v)) handles.push(v);
    return `shown.Handle ${handles.indexOf(v)}`;
  }

  const inner = (text) => (text.includes(" ") ? `(${text})` : text);
  const list = (items) => (items.length === 0 ? "[]" : `(${[...items, "[]"].join(" ∷ ")})`);

  for (const [name, value] of frees) context[name] = taken(value);

  const linker = async (source) => {
    const names = imports.filter(([from]) => from === source);
    return new vm.SyntheticModule(
      names.map(([, name]) => name),
      function () {
        for (const [, name, value] of names) this.setExport(name, taken(value));
      },
      { context },
    );
  };

  let ending = null;
  const module = new vm.SourceTextModule(body, {
    context,
    initializeImportMeta: (meta) => void (meta.url = metaUrl),
  });
  await module.link(linker);
  try {
    await module.evaluate();
  } catch (thrown) {
    if (!ended) ending = `ending.Thrown ${inner(shown(thrown))}`;
  }
  const given = [];
  if (!ended && !ending) {
    for (const action of actions) {
      try {
        given.push(`Return ${inner(shown(act(action)))}`);
      } catch (thrown) {
        if (ended) break;
        given.push(`Throw ${inner(shown(thrown))}`);
      }
    }
  }
  function act([kind, handle, ...rest]) {
    if (kind === "ReadExport") return module.namespace[handle];
    const object = handles[handle];
    if (kind === "Get") return object[rest[0]];
    if (kind === "Set") return void (object[rest[0]] = taken(rest[1]));
    if (kind === "Call") return Reflect.apply(object, taken(rest[0]), rest[1].map(taken));
    if (kind === "New") return Reflect.construct(object, rest[0].map(taken));
    throw new Error(`no action: ${kind}`);
  }
  if (ended) ending = `ending.${ended}`;
  return { events: list(events), ending: ending ?? `ending.Done ${list(given)}` };
}

const innerText = (text) => (text.includes(" ") ? `(${text})` : text);

/** A value, an answer and an action as the facts write them. */
export function valueText(value) {
  if (value === undefined) return "shown.Undefined";
  if (value === null) return "shown.Null";
  if (typeof value === "boolean") return `shown.Bool ${value}`;
  if (typeof value === "number") return `shown.Num (${shownNumber(value)})`;
  if (typeof value === "string") return `shown.Text (${bytes(value)})`;
  if ("host" in value) return `shown.Host ${value.host}`;
  if ("handle" in value) return `shown.Handle ${value.handle}`;
  return `shown.Error error.${value.error === "TypeError" ? "Kind" : value.error.replace("Error", "")}`;
}

export const listText = (items) => (items.length === 0 ? "[]" : [...items, "[]"].join(" ∷ "));
const valuesText = (values) => (values.length === 0 ? "[]" : `(${listText(values.map(valueText))})`);

export const answerText = ([how, value]) => `${how} ${innerText(valueText(value))}`;

export function actionText([kind, handle, ...rest]) {
  if (kind === "ReadExport") return `action.ReadExport (${bytes(handle)})`;
  if (kind === "Get") return `action.Get ${handle} (${bytes(rest[0])})`;
  if (kind === "Set") return `action.Set ${handle} (${bytes(rest[0])}) ${innerText(valueText(rest[1]))}`;
  if (kind === "Call") return `action.Call ${handle} ${innerText(valueText(rest[0]))} ${valuesText(rest[1])}`;
  return `action.New ${handle} ${valuesText(rest[0])}`;
}

// Types and assertions: what is a type goes, and nothing else changes.
interface Named {
    readonly name: string;
    nick?: string;
}
type Greeting<T extends Named> = `Hello, ${T["name"]}!`;

function greet<T extends Named>(who: T, times: number = 1): string {
    const name = (who.nick ?? who.name) as string;
    return `Hello, ${name}!`.repeat(times);
}

let said!: string[];
said = [<Named>{ name: "Ada" }, { name: "Grace", nick: "Amazing Grace" } satisfies Named].map((who) => greet<Named>(who, 2));
console.log(said[0]!.length, said as readonly string[]);

// Names: in the block `total` is a variable of the host, as its declaration says. (TypeScript's checker wants such declarations at
// the top, and converts them all the same.) Once the declaration is gone, the `total` of this module would catch the name; so this
// one gets another text.
declare const VERSION: string;
declare module "settings" {
    export const verbose: boolean;
}
declare namespace Host {
    enum Mode { Quiet, Loud }
    function log(text: string, mode?: Mode): void;
}
namespace Types {
    export type Amount = number;
}

{
    declare const total: number;
    Host.log(VERSION + total);
}

let total: Types.Amount = 0;
function add(amount: Types.Amount): Types.Amount {
    return (total += amount);
}

[total as any] = [add(1)];
for (total! of [2, 3]) add(total);
Host.log(JSON.stringify({ total }));

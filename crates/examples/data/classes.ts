// Classes: what has no body, is abstract or is declared goes; a field without a value stays, as ECMAScript has it.
interface Measured {
    area(): number;
}

abstract class Shape implements Measured {
    protected static count = 0;
    private readonly label?: string;
    declare kind: "shape";
    [extra: string]: unknown;

    constructor(label: string) {
        this.label = label;
        Shape.count++;
    }

    abstract area(): number;

    scaled(by: number): number;
    scaled(by: string): number;
    scaled(by: any) {
        return this.area() * Number(by);
    }

    get name(): string {
        return this.label ?? "shape";
    }
}

class Square extends Shape {
    #side: number;

    constructor(side: number) {
        super("square");
        this.#side = side;
    }

    override area() {
        return this.#side ** 2;
    }
}

function describe(this: Shape, unit = "m"): string {
    return `${this.name}: ${this.area()} ${unit}`;
}

console.log(describe.call(new Square(2)), new Square(3).scaled("2"));

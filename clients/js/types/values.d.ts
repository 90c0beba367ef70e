/** Turns the values in operations. */
export class Values {
    /** @param {Encode} [encode] @param {Decode} [decode]  as JSON if they aren't given */
    constructor(encode?: Encode | undefined, decode?: Decode | undefined);
    /**
     * Operations as the server keeps them.
     * @param {any[]} ops
     * @returns {Op[]}
     */
    encode(ops: any[]): Op[];
    /**
     * Operations as an editor has them.
     * @param {Op[]} ops
     * @returns {any[]}
     */
    decode(ops: Op[]): any[];
    #private;
}
export type Op = import("./delta.js").Op;
export type Value = import("./delta.js").Value;
/**
 * gives what the server keeps in a value's place
 */
export type Encode = (value: any, name: string) => Value;
/**
 * gives the value back
 */
export type Decode = (value: Value, name: string) => any;

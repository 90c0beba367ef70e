/**
 * @param {Contents} document
 * @returns {Block[]}
 */
export function blocksOf(document: Contents): Block[];
/**
 * How deep a line of a list stands, at most so deep.
 * @param {Line} line
 * @param {number} most
 */
export function depthOf({ attributes: { indent } }: Line, most: number): number;
/**
 * What shows an image, where its address may stand in a page.
 * @param {Piece} piece
 * @returns {string | undefined}
 */
export function imageOf({ insert }: Piece): string | undefined;
/**
 * The text that stands for a piece where nothing but text can.
 * @param {Op} op
 * @param {ConvertOptions} [options]
 * @returns {string}
 */
export function textOf({ insert, attributes }: Op, options?: ConvertOptions | undefined): string;
/**
 * Goes over the pieces of a line with the marks that stand around them, one within the other in the order that each piece has them in.
 * @template {{ name: string, value: unknown }} Mark
 * @param {Piece[]} pieces
 * @param {(piece: Piece) => Mark[]} marksOf
 * @param {{ open: (mark: Mark) => void, close: (mark: Mark) => void, piece: (piece: Piece) => void }} way
 */
export function nest<Mark extends {
    name: string;
    value: unknown;
}>(pieces: Piece[], marksOf: (piece: Piece) => Mark[], way: {
    open: (mark: Mark) => void;
    close: (mark: Mark) => void;
    piece: (piece: Piece) => void;
}): void;
export function contentsOf(document: Contents): Op[];
export type Op = import("./delta.js").QuillDelta["ops"][number];
/**
 * a document, as `contents` of an open one is
 */
export type Contents = Op[] | {
    ops: Op[];
};
export type ConvertOptions = {
    /**
     * the text for an embed that is no image, `[name]` if it
     * isn't given
     */
    embed?: ((name: string, value: any, attributes: Record<string, any>) => string) | undefined;
};
/**
 * a text without a line's end, or an embed
 */
export type Piece = {
    insert: any;
    attributes: Record<string, any>;
};
export type Line = {
    pieces: Piece[];
    attributes: Record<string, any>;
};
/**
 * lines of one kind that follow each other
 */
export type Block = {
    kind: "text" | "header" | "list" | "quote" | "code";
    lines: Line[];
    /**
     * of a header, 1 to 6
     */
    level?: number | undefined;
    /**
     * of code, empty where it is none
     */
    language?: string | undefined;
};

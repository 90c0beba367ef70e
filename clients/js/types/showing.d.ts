/**
 * Asks an editor, and reads it. All operations are as the server keeps them.
 *
 * Text stays as it was typed. Quill 1 reads the text of its page in the normal form NFC, and so counts fewer places than the page has where
 * somebody typed letters and accents apart; its class for texts is set to read them as they are, which is what Quill 2's does. Its class for
 * deltas is set to compose at the speed of the change, whatever the document's length.
 */
export class Showing {
    /** @param {any} quill @param {Values} values @param {unknown} source  of what the editor is asked */
    constructor(quill: any, values: Values, source: unknown);
    isAsking: boolean;
    get hasTold(): boolean;
    /**
     * Whether what the editor tells is what it was asked.
     * @param {{ ops: any[] }} delta
     * @param {unknown} source
     */
    hears(delta: {
        ops: any[];
    }, source: unknown): boolean;
    /** @param {{ ops: any[] }} delta  of the editor's */
    read(delta: {
        ops: any[];
    }): Delta;
    /** What it shows. */
    contents(): Delta;
    /**
     * What the editor is to show of a document.
     * @param {Delta} document
     */
    wantedOf(document: Delta): Delta;
    /**
     * Changes what is shown. Gives whether the editor did what it was asked, "other" where it did something else, or "failed" where it threw.
     * @param {Delta} change
     * @returns {"done" | "other" | "failed"}
     */
    update(change: Delta): "done" | "other" | "failed";
    /**
     * Shows a document anew. Gives whether the editor shows its text.
     * @param {Delta} document
     */
    set(document: Delta): boolean;
    /** Whether the editor shows a document's text. @param {Delta} document */
    shows(document: any): boolean;
    /**
     * Has the editor show the formats of a document, whose text it shows. Where it doesn't show them together, as two kinds of a line, they are
     * taken away and set in the order of their names: then the last one stays, in every window. Gives the change that takes those out of the
     * document that the editor has and doesn't show; undefined where it came to show another text.
     * @param {Delta} document
     */
    agree(document: Delta): Delta | undefined;
    /**
     * The change that takes away the formats of the lines around the first place where the editor shows another text than a document's, as an
     * image in a block of code. Without operations where they have none.
     * @param {Delta} document
     */
    plainer(document: Delta): Delta;
    #private;
}
export type Op = import("./delta.js").Op;
export type Attributes = import("./delta.js").Attributes;
export type Values = import("./values.js").Values;
/**
 * so many units that are shown with the same attributes, and are to be
 */
export type Stretch = {
    length: number;
    wanted: Attributes | undefined;
    shown: Attributes | undefined;
};
import { Delta } from "./delta.js";

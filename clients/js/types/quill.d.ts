/**
 * Shows a document in an editor, and keeps both alike. An editor of Quill's kind wants a line's end at the end of its contents, which is
 * added to the document where it has none. Undo and redo of the editor are the document's. Formats and embeds that the editor doesn't have
 * aren't shown, and stay in the document; what it has and doesn't show where it stands, as bold in a block of code, is taken out of the document.
 * What the document refuses is taken out of the editor again, and the document's "trouble" tells of it; so it does where the editor is found
 * to show something else than the document ("Parted"). Where the document is closed the editor is disabled, and so is one that can't show it.
 * Where the editor has the module "cursors", which is quill-cursors, it shows the carets and selections of others, and they are told of its
 * user's.
 * @param {any} quill
 * @param {RichDocument} document
 * @param {BindOptions} [options]
 * @returns {() => void} ends the binding
 */
export function bind(quill: any, document: RichDocument, options?: BindOptions | undefined): () => void;
export type Op = import("./delta.js").Op;
export type RichDocument = import("./document.js").RichDocument;
/**
 * keeps what an embed has as a data URL, as a pasted image does, and gives the URL that is put in its place
 */
export type Upload = (dataUrl: string, name: string) => Promise<string> | string;
/**
 * what shows carets and selections: quill-cursors, or what has these three of its methods
 */
export type Cursors = {
    createCursor: (id: string, name: string, color: string) => unknown;
    moveCursor: (id: string, range: import("./presence.js").Range) => void;
    removeCursor: (id: string) => void;
};
export type BindOptions = {
    /**
     * without it an embed goes into the document as it is, or is refused where it is too long for a line
     */
    upload?: Upload | undefined;
    /**
     * the color of somebody's caret, one for each name if it isn't given
     */
    colorOf?: ((user: string) => string) | undefined;
};

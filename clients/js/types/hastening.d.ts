/**
 * Has the page's class for deltas compose only what a change touches, and the operations beside it, where it is a document that is changed. The
 * others are handed on as they are: nothing of Quill's changes an operation.
 * @param {any} Delta
 */
export function hasten(Delta: any): void;

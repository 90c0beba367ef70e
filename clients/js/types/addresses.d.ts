/**
 * Whether an address is one of the web, of a mail or a telephone, or has no scheme; an image may be data as well. Browsers overlook blanks and
 * control characters in a scheme, so they count for nothing here.
 * @param {string} address
 * @param {boolean} isImage
 */
export function isSafe(address: string, isImage?: boolean): boolean;

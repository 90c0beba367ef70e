// Which addresses a link or an image may have in a page: none that is a program.

const SCHEMES = ["http", "https", "mailto", "tel"];
const PICTURE = /^data:image\/(?:gif|png|jpeg|webp);base64,/i;

/**
 * Whether an address is one of the web, of a mail or a telephone, or has no scheme; an image may be data as well. Browsers overlook blanks and
 * control characters in a scheme, so they count for nothing here.
 * @param {string} address
 * @param {boolean} isImage
 */
export function isSafe(address, isImage = false) {
  const seen = address.replace(/[\u0000-\u0020\u007f-\u00a0]/g, "");
  if (isImage && PICTURE.test(seen)) return true;
  const scheme = /^([^/?#:]*):/.exec(seen)?.[1];
  return seen !== "" && (scheme === undefined || SCHEMES.includes(scheme.toLowerCase()));
}

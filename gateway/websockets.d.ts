/** @returns {any} */
export function webSockets(): any;

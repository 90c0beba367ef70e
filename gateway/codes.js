/** The codes by which a WebSocket is closed. docs/GATEWAY.md says what a browser does then. */
export const CODE = { fault: 1011, ends: 1012, later: 1013, full: 4503, again: 4409, rights: 4403, over: 4429 };

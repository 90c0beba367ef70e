// The package ws, where it is there.

import { webSockets } from "../bridge.js";

function found() {
  try {
    return { ...webSockets(), missing: false };
  } catch (error) {
    return { missing: error.message };
  }
}

export const { WebSocket, WebSocketServer, missing } = found();

/** What a test over WebSockets is given as its options. */
export const needsWebSockets = { skip: missing };

#!/usr/bin/env node
/**
 * Serves the pages, and their WebSockets by a gateway.
 * @param {object} options
 * @param {string} options.host  of richd
 * @param {number} options.port
 * @param {string} [options.listenHost]
 * @param {number} [options.listenPort]  0 is one that is free
 * @param {string[]} [options.origins]  of pages that may connect
 * @param {string} [options.data]  a folder that keeps which names were lent
 * @param {string} [options.quill]  a folder with Quill's files
 * @param {string} [options.pages]  a folder with pages of one's own
 * @param {string} [options.archive]  that has the documents' versions
 * @returns {Promise<{ url: string, webSocketUrl: string, close: () => Promise<void> }>}
 */
export function startBridge({ host, port, listenHost, listenPort, origins, data, quill, pages, archive }: {
    host: string;
    port: number;
    listenHost?: string | undefined;
    listenPort?: number | undefined;
    origins?: string[] | undefined;
    data?: string | undefined;
    quill?: string | undefined;
    pages?: string | undefined;
    archive?: string | undefined;
}): Promise<{
    url: string;
    webSocketUrl: string;
    close: () => Promise<void>;
}>;
export function webSockets(): any;

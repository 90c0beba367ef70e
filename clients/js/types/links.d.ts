/**
 * Says what opens the links that Node alone has.
 * @param {Opener} opener
 */
export function setNodeLinks(opener: Opener): void;
/**
 * Opens a link, or throws what stood in the way.
 * @param {Address} address
 * @param {Listener} listener
 * @param {number} patience  milliseconds that it may take
 * @returns {Promise<Link>}
 */
export function openLink(address: Address, listener: Listener, patience: number): Promise<Link>;
/**
 * Where a server is: one of the three.
 */
export type Address = TcpAddress | ProgramAddress | WebSocketAddress;
/**
 * a server that listens, for Node
 */
export type TcpAddress = {
    /**
     * 127.0.0.1 if it isn't given
     */
    host?: string | undefined;
    port: number;
    command?: undefined;
    args?: undefined;
    url?: undefined;
};
/**
 * a program of one's own, for Node, as `richd serve STORE`
 */
export type ProgramAddress = {
    command: string;
    args?: string[] | undefined;
    host?: undefined;
    port?: undefined;
    url?: undefined;
};
/**
 * a gateway
 */
export type WebSocketAddress = {
    /**
     * a function is asked each time that it connects, as where a token in it has an end
     */
    url: string | (() => string | Promise<string>);
    /**
     * where there is no global one, as in Node 18 and 20
     */
    WebSocket?: WebSocketClass | undefined;
    host?: undefined;
    port?: undefined;
    command?: undefined;
    args?: undefined;
};
/**
 * Where a server is: one of the three.
 */
export type WebSocketClass = new (url: string) => WebSocketLike;
/**
 * what is used of a WebSocket
 */
export type WebSocketLike = {
    binaryType: any;
    onopen: any;
    onmessage: any;
    onerror: any;
    onclose: any;
    send: (bytes: Uint8Array) => void;
    close: () => void;
};
/**
 * what is called for a link that is open
 */
export type Listener = {
    onBytes: (bytes: Uint8Array) => void;
    /**
     * once, at its end; the cause is "Full" where the server has no place, and "Replaced" where a gateway
     * has another client of the same source
     */
    onClose: (cause?: Error) => void;
};
/**
 * Where a server is: one of the three.
 */
export type Link = {
    send: (bytes: Uint8Array) => void;
    /**
     * says that nothing more will be sent; the other end closes then
     */
    end: () => void;
    /**
     * ends it at once
     */
    cut: () => void;
};
/**
 * Where a server is: one of the three.
 */
export type Opener = (address: any, listener: Listener, patience: number) => Promise<Link>;

// What a program uses of the gateway. docs/GATEWAY.md says what the settings mean.

/** Who is signed in: a name, or an object with an id, and the name that others see. */
export type User = string | { id: string; name?: string; [more: string]: unknown };

/** What is used of a request of node:http. */
export interface Request {
  url?: string;
  headers: Record<string, string | string[] | undefined>;
}

/** What a user may do with a document: read it; edit it, and undo; create it, also again; delete it. */
export type Action = "read" | "edit" | "create" | "delete";

export interface StoreAddress {
  /** 1 to 32 characters of A-Z a-z 0-9 . _ -, the same for all gateways. */
  name: string;
  host: string;
  port: number;
  /** Whether new documents go there; true if it isn't given. */
  new?: boolean;
}

/** A command as it is sent on, as docs/PROTOCOL.md describes it. */
export interface Command {
  do: "create" | "edit" | "undo" | "delete";
  doc: string;
  n: number;
  base?: number;
  ops?: object[];
}

export interface LogEvent {
  time: string;
  event: string;
  [about: string]: unknown;
}

export interface Limits {
  /** Open at once: of the gateway 20,000, of a user 200. */
  sessions: number;
  userSessions: number;
  /** Connections at once from one address: 20,000, of them 1,000 that aren't signed in. */
  addressSessions: number;
  addressUnsigned: number;
  /** Messages a second: of a user 2,000, of an address 20,000. */
  userMessages: number;
  addressMessages: number;
  /** Bytes a second of all connections: of a user 1 MiB, of an address 64 MiB. */
  userBytes: number;
  addressBytes: number;
  /** Of them those that are no lines: of a user 16 KiB, of an address 1 MiB. */
  userOverhead: number;
  addressOverhead: number;
  /** Milliseconds a second of a store's session that reads of older revisions take: of a user 250, of an address 800. */
  userReading: number;
  addressReading: number;
  /** Documents that sessions are told of: of a user 1,000, of an address 100,000. */
  userDocuments: number;
  addressDocuments: number;
  /** Seconds that a user or an address may be above one of these without an end, and not read for it: 30. */
  heldSeconds: number;
  /** Documents that a user may create: 1,000 in all, and 100 an hour. */
  userCreations: number;
  userCreationsHour: number;
  /** Names of a user in one document, and of one store under which he sends at a time: 4. */
  userNames: number;
  /** Bytes of a document as it is fetched: 64 MiB. */
  lineBytes: number;
  /** Bytes of a line of news, and of all that came after a revision: 4 MiB. */
  newsBytes: number;
  /** Bytes that wait for all browsers of the gateway: 256 MiB. */
  waitingBytes: number;
  /** Bytes of news that are kept of all documents that somebody follows: 64 MiB. */
  keptBytes: number;
}

export interface Settings {
  /** Of this gateway: 1 to 12 characters, "g" if it isn't given. */
  name?: string;
  stores: StoreAddress[];
  /** Sessions of each store that read: 1 or 2. */
  readers?: number;
  /** Sessions of each store that write and are always open: 16. */
  writers?: number;
  /** Sessions of each store that are opened as needed, for names that have none: 8. */
  guests?: number;
  /** Names that this gateway lends in a document: 120. */
  names?: number;
  /** Days after which a name may be lent anew where all are lent: 7. */
  term?: number;
  /** Seconds after which a name that isn't used may be asked back where all are lent: 60. */
  recall?: number;
  /** Seconds after which `can` is asked again for what a browser is told of a document: 5. */
  recheck?: number;
  /** Milliseconds between two pings: 15,000. A browser that has answered none, and has taken nothing, by the next but one is cut off. */
  pulse?: number;
  /** A folder of this gateway's own, needed without etcd. */
  data?: string;
  etcd?: { urls: string[]; prefix?: string };
  /** In which store documents are, by the beginnings of their names; without etcd. */
  rule?: { prefix: string; store: string }[];
  /** Of pages that may connect; without a list those of this machine's names. */
  origins?: string[];
  /** Names by which /healthz, /metrics and /docs are asked for, besides those of the origins, of this machine, and addresses. */
  hosts?: string[];
  /** Which header says where a request comes from, as a proxy sets it. Without it the connection does. */
  address?: { header: string };
  /** Where `python3 -m richd archive` keeps the documents' revisions: a path or a URL, or one by each name of a store. */
  archive?: string | Record<string, string>;
  /** What users may take, and what is held of what a store sends; docs/GATEWAY.md has their table. */
  limits?: Partial<Limits>;
  /** Gives who asks, or null where he isn't signed in. Without it everybody is the user "anybody". */
  authorize?: (request: Request) => User | null | undefined | Promise<User | null | undefined>;
  /** Whether a user may do something. It is asked at each message. Without it everybody may do all. */
  can?: (user: any, doc: string, action: Action) => boolean | Promise<boolean>;
  /** Is asked before a command leaves: true lets it pass, and anything else refuses it. */
  onCommand?: (about: { user: any; doc: string; message: Command }) => boolean | Promise<boolean>;
  /** Is told of each command that was taken. */
  onTaken?: (about: { user: any; doc: string; message: Command; rev: number; isAgain: boolean }) => void | Promise<void>;
  log?: (event: LogEvent) => void;
  /** Whether `handleRequest` leaves /metrics out. */
  hidesMetrics?: boolean;
}

export interface Health {
  ok: boolean;
  /** null where there is no etcd in the settings. */
  etcd: boolean | null;
  stores: Record<string, boolean>;
}

export interface Gateway {
  /** For the event "connection" of an HTTP server, "secureConnection" of one with TLS: connections that nobody has signed in are limited, too. */
  handleConnection(socket: any): void;
  /** For the event "upgrade" of an HTTP server. */
  handleUpgrade(request: Request, socket: any, head: any): Promise<void>;
  /** Answers /healthz, /metrics, /docs and the pages of versions; gives false where it was none of them. */
  handleRequest(request: Request, response: any): boolean;
  /** Answers /healthz and /metrics, for an address of their own; gives false where it was none of them. */
  handleWatch(request: Request, response: any): boolean;
  /** Closes a user's sessions, as his rights have changed. */
  closeUser(id: string): void;
  /** A user's rights have changed, of one document or of all: what he may no longer do ends at once. His sessions stay. */
  revoke(id: string, doc?: string): void;
  /** Adds a store, or says anew whether one takes new documents. */
  addStore(store: StoreAddress): void;
  /** Says anew which pages may connect. */
  set origins(origins: string[] | undefined);
  health(): Health;
  /** The counts, in the text form of Prometheus. */
  metricsText(): string;
  /** Ends it: no new browsers, the replies to what was sent, then the end of all sessions. */
  close(): Promise<void>;
}

/** Begins a gateway. It fails with a reason where its settings can't be used. */
export function createGateway(settings: Settings): Promise<Gateway>;

/** The codes by which a WebSocket is closed. */
export const CODE: { fault: 1011; ends: 1012; later: 1013; full: 4503; again: 4409; rights: 4403; over: 4429 };

/** A way into the hub: lines over TCP, or WebSocket. */
export type Way = "lines" | "web";

/** What is known of a client that wants to connect. */
export interface AdmitRequest {
  way: Way;
  /** The address that it connects from: behind a proxy that of the proxy. */
  address: string;
  /** Of the request that asks for a WebSocket, with its query. Empty over TCP. */
  url: string;
  /** Likewise: cookies and authorization are here. */
  headers: Record<string, string | string[] | undefined>;
}

/** Some documents: `true` is all, an array those with these names, a function those for whose name
 *  it returns true. */
export type Documents = boolean | string[] | ((document: string) => boolean);

/** What a client may do. */
export interface Admission {
  read?: Documents;
  /** Who may write may read. */
  write?: Documents;
  /** With `data`: which documents are made when it opens or creates them. Those that it may write,
   *  unless it is said. */
  create?: Documents;
  /** With `data`: whether it may ask which documents there are. It gets those that it may read. True
   *  for who may read all, unless it is said. */
  list?: boolean;
  /** What others hear it as in `heard`, with a number behind it. */
  name?: string;
}

/** Says what a client may do, or false: it is refused. An error and ten seconds of silence refuse
 *  it, too. */
export type Admit = (request: AdmitRequest) => Admission | false | Promise<Admission | false>;

export interface HubOptions {
  /** HOST:PORT of the server. In its place, `data`. */
  server?: string;
  /** A folder: the hub runs a server for each document that is used, with its file there. One hub at
   *  a time has it. */
  data?: string;
  /** With `data`: the program of these servers; that of the repository, or of PATH. */
  program?: string;
  /** With `data`: servers that run at once (200). */
  open?: number;
  /** With `data`: seconds without use until a server is ended (300). */
  closeAfter?: number;
  /** With `data`: where there are so many documents, no further one is made (100,000). */
  documents?: number;
  /** With `data`: a Redis, HOST:PORT or a URL, by which hubs of several machines share documents. */
  redis?: string;
  /** With `redis`: what this hub is called there. */
  hub?: string;
  /** With `redis`, the same for all hubs: seconds that Redis may not answer before no changes are
   *  taken (10). */
  lease?: number;
  /** HOST:PORT to take lines at over TCP. */
  lines?: string;
  /** HOST:PORT to serve the page and to take lines at over WebSocket. */
  web?: string;
  /** With `data`: from so many operations on, and from 200 replicas on, what a document shows is put
   *  into its next generation (60,000). */
  renewAt?: number;
  /** With `data`: generations before that of now that are kept for reading (1,000,000). */
  keepGenerations?: number;
  /** Sessions that carry clients, 1 to 254; one more watches documents (5). With `data` each document
   *  has 2, and one more. */
  sessions?: number;
  /** Milliseconds between two looks for changes that others made at the server (200); with `data`
   *  2,000. */
  poll?: number;
  /** Seconds until a client that doesn't read, or hasn't sent anything yet, is dropped (30). */
  patience?: number;
  /** Seconds until a client that sends nothing more, and neither watches nor hears anything, is
   *  dropped (3600). */
  idle?: number;
  /** Megabytes of the longest reply that is handed on (8). */
  replyLimit?: number;
  /** Origins of pages that may connect, beside the hub's own. */
  origins?: string[];
  admit?: Admit;
  /** Beside a server before 1.2.0: its file, on this machine, by which `stored` is answered. */
  file?: string;
  /** Beside a server before 1.2.0: whether it was started with `--durable`, so that what is
   *  acknowledged is stored. */
  durable?: boolean;
  /** Lines of a session until it is renewed (990,000): for tests. */
  linesPerSession?: number;
  /** Is called before each step of a renewal: for tests. */
  atStep?: (step: string) => void;
  /** Clients of each way in, at most (2,000): for tests. */
  mostClients?: number;
  /** Gets notes in place of standard error. */
  note?: (text: string) => void;
  /** The time that its pauses and limits go by: for tests. */
  clock?: import("jcrdt/clock").Clock;
}

export interface Health {
  connected: boolean;
  /** Since when it is so: a time in UTC. */
  since: string;
  sessions: { got: number; wanted: number };
  /** With `data`: documents that there are, and those whose server runs. */
  documents?: { all: number; open: number };
  /** With `redis`: what this hub is called, whether Redis can be reached, and whether the fleet is
   *  founded there, so that documents are renewed. */
  fleet?: { hub: string; connected: boolean; founded: boolean; trouble?: string };
  /** Why there are fewer sessions than wanted; with `data` which documents can't be opened. */
  trouble?: string;
  clients: Record<Way, number>;
}

/** What is known of a document of a hub with `data`. */
export interface DocumentState {
  name: string;
  /** Whether its server runs. */
  isOpen: boolean;
  /** Clients that have it open. */
  clients: number;
  /** As far as it is known: now, or when its server ended. */
  operations?: number;
  replicas?: number;
  /** Seconds that its server took for a reply just now. */
  lag?: number;
}

/** What who runs a hub with `data` does with documents. What can't be done is thrown, and has changed
 *  nothing. */
export interface Desk {
  /** All documents, by name. */
  list(): Promise<DocumentState[]>;
  /** Makes a document. A name has 1 to 32 of a-z, 0-9 and -. */
  create(name: string): Promise<void>;
  /** Gives a document another name. Clients that have it open are dropped. With `redis` it is refused. */
  rename(name: string, other: string): Promise<void>;
  /** Puts a document into the bin, and resolves what it is called there: NAME.TIME. Clients that have
   *  it open are dropped. With `redis` only its home does: then all hubs do, and its name isn't used
   *  again. */
  delete(name: string): Promise<string>;
  /** What is in the bin, oldest first. It stays there until somebody removes it. */
  deleted(): Promise<string[]>;
  /** Takes a document out of the bin, under its name or another one. */
  restore(entry: string, name?: string): Promise<void>;
  /** Puts what a document shows into its next generation, and resolves that. */
  renew(name: string): Promise<string>;
  /** With `redis`: founds the fleet of these hubs, so that documents are renewed, and founds it again
   *  where Redis has lost it. Each of them has connected since then. */
  found(hubs: string[]): Promise<void>;
  /** The document's operations as lines, in the order of its log. NAME/GENERATION is one of before. */
  export(name: string): AsyncGenerator<string, void>;
}

export interface Hub {
  /** Where it takes lines over TCP, HOST:PORT. */
  lines?: string;
  /** Where its page is, a URL. */
  page?: string;
  health(): Health;
  /** In the text format of Prometheus. */
  metrics(): Promise<string>;
  /** With `data`: what is done with documents. */
  documents?: Desk;
  /** Ends all connections, and resolves when nothing is left. With `data` its servers drain first. */
  stop(): Promise<void>;
}

/** Starts a hub. Resolves when it listens; the server may come later.
 *  @throws {RangeError} for an option out of its bounds, TypeError for what isn't HOST:PORT and for
 *  options that don't fit together, Busy where another hub has `data` */
export function hub(options: HubOptions): Promise<Hub>;

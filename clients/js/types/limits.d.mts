/** The limits of documents and lines. Texts and lines are in bytes of UTF-8. */
export const MOST: Readonly<{
    reply: number;
    log: 100000;
    replicas: 256;
    held: 256;
    path: 30;
    key: 128;
    value: 4096;
    line: 65536;
    page: 64;
    variables: 64;
    variable: 128;
    lines: 1000000;
    sessions: 256;
    said: 4096;
    listed: 1000;
    mapped: 1000;
}>;

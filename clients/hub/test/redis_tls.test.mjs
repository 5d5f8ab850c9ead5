/* Hubs that reach a real Redis by TLS and a password: with a certificate of a CA that they know, and not with
   another one, a wrong password, or a name that the certificate hasn't got. */

import { match } from "node:assert/strict";
import { execFileSync } from "node:child_process";
import { lookup } from "node:dns/promises";
import { writeFileSync } from "node:fs";
import { join } from "node:path";
import { test } from "node:test";
import { assign, found, RedisServer, sees, startFleetHub } from "./redis_parts.mjs";
import { joinLines, kill, lacks, missing, ROOM, suite, until } from "./support.mjs";

const PASSWORD = "s3cret/@:"; // it is written as part of a URL
// What the certificate names: a bare machine has no /etc/hosts, and an address will do.
const ADDRESS = "127.0.0.2";
const NAMED = await lookup("localhost").then(() => "localhost", () => ADDRESS);
const openssl = (...words) => execFileSync("openssl", words, { cwd: ROOM, stdio: ["ignore", "ignore", "pipe"] });

/** A CA's certificate, and one that it has given to localhost and to an address. */
function certificates(name) {
  const of = (kind, ending) => `${name}-${kind}.${ending}`;
  const ca = ["-CA", of("ca", "pem"), "-CAkey", of("ca", "key"), "-CAcreateserial"];
  openssl("req", "-x509", "-newkey", "rsa:2048", "-nodes", "-days", "2", "-subj", `/CN=${name}`, "-keyout", of("ca", "key"), "-out", of("ca", "pem"));
  openssl("req", "-newkey", "rsa:2048", "-nodes", "-subj", "/CN=redis", "-keyout", of("redis", "key"), "-out", of("redis", "csr"));
  writeFileSync(join(ROOM, `${name}.ext`), `subjectAltName=DNS:localhost,IP:${ADDRESS}`);
  openssl("x509", "-req", "-days", "2", "-in", of("redis", "csr"), ...ca, "-extfile", `${name}.ext`, "-out", of("redis", "pem"));
  return { ca: join(ROOM, of("ca", "pem")), key: join(ROOM, of("redis", "key")), certificate: join(ROOM, of("redis", "pem")) };
}

/** A Redis that speaks TLS alone. */
class TlsRedis extends RedisServer {
  static started({ ca, key, certificate }) {
    return super.started("--tls-cert-file", certificate, "--tls-key-file", key, "--tls-ca-cert-file", ca,
      "--tls-auth-clients", "no", "--requirepass", PASSWORD, "--bind", "127.0.0.1", ADDRESS, "-::1");
  }

  get ways() {
    return { served: ["--port", "0", "--tls-port", `${this.port}`],
      asked: ["--tls", "--insecure", "--no-auth-warning", "-a", PASSWORD, "-p", `${this.port}`] };
  }

  at = (host, password = PASSWORD) => `rediss://:${encodeURIComponent(password)}@${host}:${this.port}`;
}

suite("redis by TLS", { skip: missing || lacks("redis-server", "redis-cli", "openssl") }, () => {
  test("hubs share a document by it, and name what is wrong", async () => {
    const [own, other] = ["own", "other"].map(certificates);
    const redis = await TlsRedis.started(own);
    process.env.NODE_EXTRA_CA_CERTS = own.ca; // what is started from here on has it
    const [a, b] = [await startFleetHub(redis.at(NAMED), "a"), await startFleetHub(redis.at(NAMED), "b")];
    await found(a, b);
    const [ada, bob] = [await joinLines(a.lines, "d"), await joinLines(b.lines, "d")];
    await assign(ada, "x", 1);
    await sees(bob, "x", 1);
    const says = async (words, address) => {
      const hub = await startFleetHub(address, "c");
      await until("it says why", () => words.test(hub.child.notes));
      match(hub.child.notes, /trying again/);
      await kill(hub.child, "SIGTERM");
    };
    await says(/altnames/i, redis.at("127.0.0.1")); // it isn't in the certificate
    await says(/WRONGPASS|invalid password|invalid username/i, redis.at(NAMED, "other"));
    process.env.NODE_EXTRA_CA_CERTS = other.ca;
    await says(/certificate/i, redis.at(NAMED));
    await says(/ended|ECONNRESET|EPIPE/i, redis.at(NAMED).replace("rediss", "redis"));
  });
});

/* The program and the package: command line, `npm pack`, the unit, and nginx before the hub. */

import { deepEqual, equal, match, ok } from "node:assert/strict";
import { execFileSync, spawnSync } from "node:child_process";
import { cpSync, existsSync, mkdirSync, readFileSync, realpathSync, writeFileSync } from "node:fs";
import http from "node:http";
import https from "node:https";
import net from "node:net";
import { join } from "node:path";
import { test } from "node:test";
import { fileURLToPath, pathToFileURL } from "node:url";
import {
  HUB, joinLines, joinWeb, kill, lacks, launch, ROOM, start, startHub, startServer, suite, until, webSockets,
  within,
} from "./support.mjs";
import { tooLong } from "../../js/test/support.mjs";
import { OPTIONS } from "../lib/option_table.mjs";

const PACKAGE = fileURLToPath(new URL("../", import.meta.url));
const TOP = fileURLToPath(new URL("../../../", import.meta.url));
const CLIENTS = fileURLToPath(new URL("../../", import.meta.url));


/** Runs the hub, and resolves with its status and what it wrote. */
async function run(...words) {
  const child = launch(process.execPath, [HUB, ...words]);
  let stdout = "";
  child.stdout.on("data", (text) => (stdout += text));
  await child.ended;
  return { status: child.exitCode, stdout, stderr: child.notes };
}

/** A port that is free now. */
async function freePort() {
  const server = net.createServer();
  await new Promise((open) => server.listen(0, "127.0.0.1", open));
  const { port } = server.address();
  await new Promise((closed) => server.close(closed));
  return port;
}

suite("the program and the package", {}, () => {
  test("help and version", async () => {
    const [help, version] = await Promise.all([run("--help"), run("--version")]);
    deepEqual([help.status, help.stderr], [0, ""]);
    match(help.stdout, /^usage: jcrdt-hub SERVER /);
    const number = readFileSync(`${TOP}VERSION`, "utf8").trim();
    deepEqual([version.stdout, version.status], [`jcrdt-hub ${number}\n`, 0]);
    const { version: own, dependencies } = JSON.parse(readFileSync(`${PACKAGE}package.json`, "utf8"));
    deepEqual([own, dependencies.jcrdt], [number, number]);
  });

  test("each option of the help is one", async () => {
    const named = (await run("--help")).stdout.match(/^ {2}--[a-z-]+/gm).map((it) => it.trim());
    const values = named.flatMap((it) => (["--help", "--durable"].includes(it) ? [it] : [it, "x"]));
    const { status, stderr } = await run(...values, "--nothing");
    deepEqual([status, /Unknown option '--nothing'/.test(stderr)], [2, true], stderr);
  });

  test("index.d.ts has each option of the table, and says what a number usually is", () => {
    const types = readFileSync(`${PACKAGE}index.d.ts`, "utf8").split("export interface HubOptions")[1].split("\n}")[0];
    const comments = new Map([...types.matchAll(/(?:\/\*\*((?:(?!\*\/)[^])*)\*\/\s*)?^ {2}(\w+)\??:/gm)]
      .map(([, comment = "", name]) => [name, comment.replaceAll(",", "")]));
    deepEqual(Object.keys(OPTIONS).filter((it) => !comments.has(it)), []);
    const numbers = Object.entries(OPTIONS).filter(([, { bounds }]) => bounds);
    deepEqual(numbers.filter(([name, { bounds }]) => !comments.get(name).includes(`(${bounds.usual})`)), []);
  });

  test("a wrong command line is status 2, and says what is wrong", async () => {
    const wrong = [
      [[], /one SERVER/], [["a:1"], /neither lines nor web/], [["a", "--lines", "127.0.0.1:0"], /a isn't HOST:PORT/],
      [["a:1", "b:2", "--lines", "127.0.0.1:0"], /one SERVER/], [["a:1", "--lines", "x"], /x isn't HOST:PORT/],
      [["a:1", "--lines", "127.0.0.1:0", "--sessions", "0"], /sessions is 1 to 254/],
      [["a:1", "--lines", "127.0.0.1:0", "--sessions", "255"], /sessions is 1 to 254/],
      [["a:1", "--lines", "127.0.0.1:0", "--poll", "fast"], /poll is 10 to/],
      [["a:1", "--unknown"], /Unknown option '--unknown'/],
    ];
    await Promise.all(wrong.map(async ([words, said]) => {
      const { status, stdout, stderr } = await run(...words);
      deepEqual([status, stdout], [2, ""], words.join(" "));
      match(stderr, said);
      match(stderr, /usage: jcrdt-hub/);
    }));
  });

  test("an address that is taken, and a module that isn't there, are status 1", async () => {
    const server = net.createServer();
    await new Promise((open) => server.listen(0, "127.0.0.1", open));
    const taken = `127.0.0.1:${server.address().port}`;
    const { status, stderr } = await run("127.0.0.1:1", "--lines", taken);
    equal(status, 1);
    match(stderr, /EADDRINUSE/);
    server.close();
    const lacking = await run("127.0.0.1:1", "--lines", "127.0.0.1:0", "--admit", "none.mjs");
    equal(lacking.status, 1, lacking.stderr);
  });

  test("from a fresh clone, and linked as a workspace, it finds the package jcrdt", { skip: lacks("npm") || tooLong }, () => {
    const clone = join(ROOM, "clone");
    for (const name of ["package.json", "clients/js", "clients/hub"]) {
      const filter = (from) => !from.endsWith("node_modules");
      cpSync(join(CLIENTS, "..", name), join(clone, name), { recursive: true, filter });
    }
    const run = (command, ...words) => {
      const done = spawnSync(command, words, { cwd: join(clone, "clients/hub"), encoding: "utf8" });
      equal(done.status, 0, done.stderr);
      return done.stdout.trim();
    };
    const found = 'import("./lib/client_package.mjs").then((it) => console.log(it.FOLDER.href))';
    const due = pathToFileURL(`${join(realpathSync(clone), "clients/js")}/`).href;
    equal(run(process.execPath, "-e", found), due); // nothing is installed
    run("npm", "install", "--prefix", clone, "--offline", "--no-audit", "--no-fund", "--no-update-notifier");
    const named = 'import("jcrdt/provider").then((it) => console.log(typeof it.Provider))';
    equal(run(process.execPath, "-e", named), "function"); // by its name
    equal(run(process.execPath, "-e", found), due);
  });

  test("packed, it runs in an empty folder", { skip: lacks("npm") || tooLong }, async () => {
    const room = join(ROOM, "packed");
    const modules = join(room, "node_modules");
    mkdirSync(room);
    const npm = async (...words) => {
      const child = launch("npm", [...words, "--silent"], { cwd: room });
      let out = "";
      child.stdout.on("data", (text) => (out += text));
      await child.ended;
      equal(child.exitCode, 0, child.notes);
      return out.trim().split("\n");
    };
    const folders = ["js", "hub"].map((it) => join(CLIENTS, it));
    const packed = (await npm("pack", "--offline", ...folders)).slice(-2).map((it) => `./${it}`);
    // A registry that is away would be waited for. Nothing of these packages is there.
    const asked = [];
    const registry = http.createServer(({ url }, response) => {
      asked.push(url);
      response.writeHead(404).end();
    });
    await new Promise((open) => registry.listen(0, "127.0.0.1", open));
    const at = `http://127.0.0.1:${registry.address().port}/`;
    await npm("install", "--registry", at, "--no-audit", "--no-fund", "--no-update-notifier", ...packed);
    registry.close();
    deepEqual(asked, []);
    ok(!existsSync(join(modules, "jcrdt-hub/test")));
    ok(existsSync(join(modules, "jcrdt-hub/README.md")));
    const { address } = await startServer(["d"]);
    const words = [join(modules, "jcrdt-hub/hub.mjs"), address, "--lines", "127.0.0.1:0", "--web", "127.0.0.1:0"];
    const { lines } = await start(process.execPath, words, 2, { cwd: room });
    const client = await joinLines(lines[0][1], "d");
    equal((await client.add("d", [0, "n"], 1))[0], 1);
    client.end();
    // npx keeps SIGTERM to itself.
    const npx = launch("npx", ["--offline", "jcrdt-hub", address, "--lines", "127.0.0.1:0"], { cwd: room });
    await within("it listens", new Promise((says) => npx.stdout.once("data", says)));
    npx.kill();
    await within("the hub has ended", npx.ended);
    // Its page comes with the modules of the package jcrdt.
    const page = lines[1][1];
    const text = await (await fetch(`${page}web/page.mjs`)).text();
    for (const [, place] of text.matchAll(/from "(\.[^"]+)"/g)) {
      equal((await fetch(new URL(place, `${page}web/page.mjs`))).status, 200, place);
    }
    // As a part of a program.
    const program = `
      import { hub } from "jcrdt-hub";
      import { connected } from "jcrdt";
      const running = await hub({ server: "${address}", lines: "127.0.0.1:0" });
      const client = await connected(running.lines);
      await client.open("d");
      console.log(JSON.stringify([await client.sum("d", [0, "n"]), running.health().connected]));
      await client.quit();
      await running.stop();`;
    writeFileSync(join(room, "program.mjs"), program);
    const ran = launch(process.execPath, ["program.mjs"], { cwd: room });
    let out = "";
    ran.stdout.on("data", (piece) => (out += piece));
    await ran.ended;
    equal(out, "[1,true]\n", ran.notes);
    equal(ran.exitCode, 0, ran.notes); // nothing keeps it alive
  });

  for (const name of ["jcrdt-hub", "jcrdt-hub-data"]) test(`the unit ${name}`, { skip: lacks("systemd-analyze") }, async () => {
    const text = readFileSync(join(PACKAGE, `${name}.service`), "utf8");
    const unit = join(ROOM, `${name}.service`);
    const here = text.replaceAll("/usr/bin/node", process.execPath).replace("/var/lib/jcrdt-hub", join(ROOM, "of-unit"))
      .replaceAll("/usr/local/lib/jcrdt-hub/node_modules/jcrdt-hub/hub.mjs", HUB);
    writeFileSync(unit, here);
    const verified = spawnSync("systemd-analyze", ["verify", unit], { encoding: "utf8" });
    equal(verified.stderr.split("\n").filter((it) => it.includes("jcrdt-hub")).join("\n"), "");
    equal(verified.status, 0, verified.stderr);
    const security = spawnSync("systemd-analyze", ["security", "--offline=yes", unit], { encoding: "utf8" });
    const level = Number(/Overall exposure level.*: ([0-9.]+)/.exec(security.stdout)?.[1]);
    ok(level <= 2.5, `exposure ${level}`);
    // Its command line is one: the hub starts with it, at other ports.
    const words = /^ExecStart=(.*)$/m.exec(here)[1].replace(":7201", ":0").split(" ").slice(1);
    const { child, lines } = await start(process.execPath, words, 1);
    equal(lines[0][0], "page");
    await kill(child, "SIGTERM");
    equal(child.exitCode, 0);
  });

  test("nginx before the hub, as GUIDE has it", { skip: lacks("nginx", "openssl") }, async () => {
    const port = await freePort();
    const origin = `https://localhost:${port}`;
    const server = await startServer(["d"]);
    const hub = await startHub(server.address, "--origin", origin);
    await startNginx(port, hub.page);
    // The name is looked up nowhere: a bare machine has no /etc/hosts.
    const lookup = (_, options, found) => (options.all ? found(null, [{ address: "127.0.0.1", family: 4 }])
      : found(null, "127.0.0.1", 4));
    const agent = new https.Agent({ rejectUnauthorized: false, lookup });
    const get = (path) => new Promise((resolve, failed) => {
      https.get(`${origin}${path}`, { agent }, async (response) => {
        let text = "";
        for await (const piece of response) text += piece;
        resolve([response.statusCode, text]);
      }).on("error", failed);
    });
    await until("nginx serves", () => get("/health").then(([status]) => status === 200, () => false));
    deepEqual(JSON.parse((await get("/health"))[1]).connected, true);
    equal((await get("/web/"))[0], 200);
    equal((await get("/notes/web/"))[0], 200); // below a path
    for (const path of ["/metrics", "/notes/metrics"]) equal((await get(path))[0], 403, path);
    for (const path of ["lines", "notes/lines"]) {
      const page = `${origin.replace("https", "wss")}/`;
      const client = await joinWeb(page, { origin, rejectUnauthorized: false, lookup }, path);
      await client.open("d");
      let fronts = 0;
      await client.watch("d", () => fronts++);
      await client.add("d", [0, "n"], 1);
      await until("the change is pushed", () => fronts > 1);
      client.end();
    }
    const { WebSocket } = webSockets();
    const evil = new WebSocket(`wss://localhost:${port}/lines`, { origin: "https://evil.example", rejectUnauthorized: false, lookup });
    match(await new Promise((resolve) => evil.on("error", (error) => resolve(error.message))), /403/);
  });
});

/** Starts nginx with the block of GUIDE, for another port, certificate and hub. */
async function startNginx(port, page) {
  const room = join(ROOM, "nginx");
  mkdirSync(room);
  const name = join(room, "certificate");
  execFileSync("openssl", ["req", "-x509", "-newkey", "rsa:2048", "-nodes", "-days", "2", "-subj", "/CN=localhost",
    "-keyout", `${name}.key`, "-out", `${name}.pem`], { stdio: "ignore" });
  const [, block] = /```nginx\n(.*?)```/s.exec(readFileSync(`${TOP}docs/GUIDE.md`, "utf8"));
  const below = /  location \/ \{.*?\n  \}\n/s.exec(block)[0].replace("location / {", "location /notes/ {");
  const here = block.replace("listen 443 ssl", `listen 127.0.0.1:${port} ssl`)
    .replaceAll("/etc/ssl/notes.example.org", name)
    .replace("  location ~", `${below}  location ~`)
    .replaceAll("http://127.0.0.1:7201/", page);
  const temporary = ["client_body", "proxy", "fastcgi", "uwsgi", "scgi"].map((it) => `${it}_temp_path ${room}/${it};`);
  const frame = `daemon off; pid ${room}/pid; error_log stderr warn; ${user()} events {}
http { access_log off; ${temporary.join(" ")}
${here}
}`;
  writeFileSync(join(room, "nginx.conf"), frame);
  const child = launch("nginx", ["-p", room, "-c", join(room, "nginx.conf"), "-e", "stderr"]);
  await until("nginx listens", () => new Promise((resolve) => {
    if (child.exitCode !== null) throw new Error(child.notes);
    const socket = net.connect(port, "127.0.0.1", () => resolve(true));
    socket.on("error", () => resolve(false)).on("connect", () => socket.destroy());
  }));
}

/** As root, nginx has to be said whom it works as. */
const user = () => (process.getuid() === 0 ? "user root;" : "");

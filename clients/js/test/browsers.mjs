/* Any browser, as a program of Debian's that opens an address. Isn't run by itself. */

import { spawn } from "node:child_process";
import { existsSync, mkdtempSync, readdirSync, rmSync } from "node:fs";
import { tmpdir } from "node:os";
import { join } from "node:path";

const SECONDS = 240; // for a screen to begin

/** A browser: its program and others that it wants, and what that is started with.
 *  @typedef {object} Browser
 *  @property {string} name
 *  @property {Record<string, string | undefined>} programs Of packages: the first is the browser's.
 *  @property {boolean} [wantsScreen]
 *  @property {boolean} [isSlow] It is tried where JCRDT_SLOW is set.
 *  @property {(folder: string) => string[]} words */

const LIB = "/usr/lib/x86_64-linux-gnu";
const webkits = existsSync(LIB) ? readdirSync(LIB).filter((it) => /^webkit2gtk-4\.\d$/.test(it)) : [];
const found = (/** @type {string[]} */ ...paths) => paths.find((it) => existsSync(it));

/** @type {Browser[]} */
export const BROWSERS = [
  {
    name: "Chromium", programs: { chromium: found("/usr/bin/chromium") },
    words: (folder) => ["--headless=new", "--no-sandbox", "--disable-gpu", "--disable-dev-shm-usage", "--no-first-run",
      `--user-data-dir=${folder}`],
  },
  {
    name: "Firefox", isSlow: true, programs: { "firefox-esr": found("/usr/bin/firefox-esr") },
    words: (folder) => ["--headless", "--no-remote", "--profile", folder],
  },
  {
    name: "WebKitGTK", isSlow: true, wantsScreen: true,
    programs: { "webkit2gtk-driver": found(...webkits.map((it) => join(LIB, it, "MiniBrowser"))), xvfb: found("/usr/bin/Xvfb") },
    words: () => [],
  },
];

/** Why a browser can't be tried, as `./test` reads it; false where it can.
 *  @param {Browser} browser */
export function lacks({ programs, isSlow }) {
  if (isSlow && !process.env.JCRDT_SLOW) return "another browser takes a minute: set JCRDT_SLOW";
  const all = Object.keys(programs).filter((it) => !programs[it]);
  return all.length > 0 && `${all.join(", ")}: not installed: apt-get install ${all.join(" ")}`;
}

/** Opens an address. Returns what ends the browser and removes what it has written.
 *  @param {Browser} browser
 *  @param {string} url
 *  @returns {Promise<() => Promise<void>>} */
export async function opened({ programs, words, wantsScreen }, url) {
  const [program = ""] = Object.values(programs);
  const folder = mkdtempSync(join(tmpdir(), "jcrdt-browser-"));
  const screen = wantsScreen ? await startedScreen() : undefined;
  const env = { ...process.env, HOME: folder, XDG_RUNTIME_DIR: folder, ...(screen && { DISPLAY: screen.display }) };
  const child = spawn(program, [...words(folder), url], { env, stdio: "ignore", detached: true });
  const ended = new Promise((end) => child.on("exit", end).on("error", end));
  const kill = () => { for (const it of [child, screen?.child]) if (it) killGroup(it); };
  process.on("exit", kill);
  return async () => {
    kill();
    await ended;
    process.off("exit", kill);
    rmSync(folder, { recursive: true, force: true, maxRetries: 10, retryDelay: 200 });
  };
}

/** @param {import("node:child_process").ChildProcess} child */
function killGroup({ pid }) {
  try {
    if (pid) process.kill(-pid, "SIGKILL");
  } catch {
    return; // it has ended
  }
}

/** A screen without a monitor, and how programs name it. */
async function startedScreen() {
  const child = spawn("/usr/bin/Xvfb", ["-displayfd", "3", "-screen", "0", "800x600x24"],
    { stdio: ["ignore", "ignore", "ignore", "pipe"], detached: true });
  const number = await new Promise((told, failed) => {
    setTimeout(() => failed(new Error("Xvfb doesn't begin")), SECONDS * 1000).unref();
    child.on("exit", () => failed(new Error("Xvfb has ended")));
    child.stdio[3]?.on("data", (/** @type {any} */ bytes) => told(String(bytes).trim()));
  });
  return { child, display: `:${number}` };
}

/* The page passes tsc with checkJs and strict. */

import { equal } from "node:assert/strict";
import { spawnSync } from "node:child_process";
import { mkdtempSync, readdirSync, rmSync, writeFileSync } from "node:fs";
import { tmpdir } from "node:os";
import { join } from "node:path";
import { test } from "node:test";
import { fileURLToPath } from "node:url";
import { tooLong } from "../../js/test/support.mjs";

const WEB = fileURLToPath(new URL("../web/", import.meta.url));
const HUB = fileURLToPath(new URL("..", import.meta.url));
const CLIENTS = fileURLToPath(new URL("../..", import.meta.url));
const AMBIENT = fileURLToPath(new URL("../../js/test/ambient.d.ts", import.meta.url));
const skip = spawnSync("tsc", ["--version"]).status !== 0 ? "tsc isn't installed" : tooLong;

test("types of the page", { skip, timeout: 900_000 }, () => {
  const room = mkdtempSync(join(tmpdir(), "jcrdt-types-"));
  const options = {
    allowJs: true, checkJs: true, strict: true, noEmit: true, skipLibCheck: true, types: [],
    target: "es2022", module: "es2022", moduleResolution: "node", lib: ["es2022", "dom", "dom.iterable"],
    rootDirs: [HUB, CLIENTS], // the hub serves clients/js as js/, beside web/
  };
  const files = readdirSync(WEB).filter((it) => it.endsWith(".mjs")).map((it) => join(WEB, it));
  const config = { compilerOptions: options, files: [...files, AMBIENT] };
  writeFileSync(join(room, "tsconfig.json"), JSON.stringify(config));
  const { stdout } = spawnSync("tsc", ["-p", room], { encoding: "utf8" });
  rmSync(room, { recursive: true });
  equal(stdout, "");
});

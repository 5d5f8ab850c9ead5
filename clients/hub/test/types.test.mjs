/* The package passes tsc with checkJs and strict. */

import { deepEqual } from "node:assert/strict";
import { spawnSync } from "node:child_process";
import { existsSync, mkdirSync, readdirSync, writeFileSync } from "node:fs";
import { join } from "node:path";
import { test } from "node:test";
import { fileURLToPath } from "node:url";
import { tooLong } from "../../js/test/support.mjs";
import { lacks, ROOM } from "./support.mjs";

const PACKAGE = fileURLToPath(new URL("../", import.meta.url));
const DEBIAN_TYPES = "/usr/share/nodejs/@types";

test("types", { skip: lacks("tsc", "dpkg-deb") || tooLong, timeout: 900_000 }, (context) => {
  const types = nodeTypes();
  if (!types) return context.skip("@types/node isn't to be had: Debian's package nodejs has it");
  const options = {
    allowJs: true, checkJs: true, strict: true, noEmit: true, skipLibCheck: true, types: ["node"],
    target: "es2022", module: "node16", moduleResolution: "node16", lib: ["es2022", "dom", "dom.iterable"],
    typeRoots: [types], paths: { ws: [`${DEBIAN_TYPES}/ws/index.d.ts`] },
  };
  const files = [`${PACKAGE}hub.mjs`, `${PACKAGE}index.mjs`];
  writeFileSync(join(ROOM, "tsconfig.json"), JSON.stringify({ compilerOptions: options, files }));
  const { stdout } = spawnSync("tsc", ["-p", join(ROOM, "tsconfig.json")], { encoding: "utf8" });
  const own = stdout.split("\n").filter((it) => it.includes("error TS") && !/(^|\/)js\/[a-z_]+\.mjs/.test(it));
  deepEqual(own, []);
});

/** The folder of @types/node: of the machine, or of Debian's package nodejs, which has it. */
function nodeTypes() {
  if (existsSync(`${DEBIAN_TYPES}/node`)) return DEBIAN_TYPES;
  const room = join(ROOM, "types");
  const types = `${room}/usr/share/nodejs/@types`;
  if (existsSync(types)) return types;
  mkdirSync(room, { recursive: true });
  const versions = spawnSync("apt-cache", ["madison", "nodejs"], { encoding: "utf8" }).stdout ?? "";
  const version = /nodejs \| (\S+dfsg\S*) /.exec(versions)?.[1];
  if (!version) return undefined;
  spawnSync("apt-get", ["download", `nodejs=${version}`], { cwd: room, timeout: 240_000 });
  const file = readdirSync(room).find((it) => it.endsWith(".deb"));
  if (file) spawnSync("dpkg-deb", ["-x", file, room], { cwd: room });
  return existsSync(types) ? types : undefined;
}

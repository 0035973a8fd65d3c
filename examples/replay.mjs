#!/usr/bin/env -S deno run -A
// @ts-self-types="./replay.d.mts"
import { readFile } from "node:fs/promises";
import defer * as plot from "./plot.mjs";
import source aes from "./aes.wasm";

/** Plays a day of telegrams again: « données brutes ». {import("./telegram.js").Telegram} */
const day = process.argv[2] ?? import.meta.dirname;
const config = await import("./config.json", { with: { type: "json" }, retry: 3 });
const old = await import("./old.json", { assert: { type: "json" }, with: { type: kind, "lang": "fr" } });
const both = await import("./" + day + ".mjs", ...options);
await import.defer("./late.mjs");
await import.source(new URL("./fast.wasm", import.meta.url));
console.log(config, old, both, plot, aes, await readFile(day));
//# sourceMappingURL=data:application/json;base64,e30=

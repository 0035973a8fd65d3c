// The files of the zones, as two tools wrote their names. A lone surrogate is no character, and UTF-8 has no bytes for it: it is reported
// as U+FFFD, so that it prints like a name that really has U+FFFD. A citation tells the two apart by its letter.
import lone from "./zone-\uD83D.mjs";
import real from "./zone-\uFFFD.mjs";
export * from "./zone-\uD83D\uDE00-\uDE00\uDE01.mjs";

export const spare = () => import(`./spare-\uD800.mjs`);
export const named = (name) => import("./zone-\uD83D" + name);
export const numbered = (n) => import(`./zone-\uD83D-${n}.mjs`);
export const legacy = require("./legacy-\uDFFF.cjs");
export const zones = [lone, real, require("./legacy-\uFFFD.cjs")];

import { split } from "./frame.js";

/** {import("./types.d.ts").Reading} */
export const litres = (bytes) => split(bytes).body.reduce((sum, byte) => sum * 256 + byte, 0);

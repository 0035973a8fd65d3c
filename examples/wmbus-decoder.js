/// <reference types="npm:@types/node@22" />
/// <reference path="./meter.d.ts" />
// @ts-self-types="./wmbus-decoder.d.ts"
'use strict';

/**
 * Decodes the payload of a radio water meter (wM-Bus, mode C1).
 * @import { Telegram, Reading as Messwert } from "./meter.d.ts"
 * @import * as units from './units.js' with { "resolution-mode": "import" }
 * @param {Buffer} bytes the payload behind the link layer
 * @param {import("./keys.js").KeyStore} keys
 * @returns {{ volume: number, at: import('./clock.js', { with: { "resolution-mode": "require" } }).Instant }}
 */
function decode(bytes, keys) {
  const aes = require("node:crypto");
  // @deno-types="./crc16.d.ts"
  const crc = require("./crc16.js");
  const vendor = require("./vendors/" + bytes.toString("hex", 2, 4) + ".js");
  if (crc(bytes) !== 0) throw new RangeError("Prüfsumme");
  return vendor.read(aes, bytes, keys);
}

module.exports = { decode };
//# sourceMappingURL=wmbus-decoder.js.map

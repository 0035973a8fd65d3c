/// <reference no-default-lib="true"/>
import fs = require("node:fs");
import type Meter = require("./meter.d.ts");
export import clock = require("./clock.cjs");
import Inner = clock.Inner;
namespace Station {
  export const read = (): import("./reading.cjs", { with: { "resolution-mode": "require" } }).Reading => require("./reading.cjs");
}
export = Station;

/// <reference path="../shared/units.d.ts" />
// types of a decoded telegram
import { Instant } from "./clock.js";

declare module "./wmbus-decoder.js" {
  export type Telegram = import("./telegram.js").Telegram<import("./telegram.js").Frame>;
}

// @ts-types="./csv.d.ts"
declare module "npm:csv" {
  export function parse(text: string): string[][];
}

declare module "*.csv" {
  const rows: string[][];
  export default rows;
}

declare global {
  interface Reading {
    at: Instant;
    litres: number;
  }
}

export as namespace meter;

/// <reference types="./currency" resolution-mode="import" />
/// <reference types="legacy-units" resolution-mode='require'/>
/// <reference lib="es2022" />
import { Band, type Step } from "./bands.ts";
import type { Contract } from "./contract.ts";
// @ts-types="npm:@types/decimal.js@7"
import Decimal from "npm:decimal.js@10";
import rates from "./rates.json" with { type: "json" };
import "./register.ts";
export type { Invoice } from "./invoice.ts";
export * from "./rounding.ts";
export * as seasons from "./seasons.ts";
export { tax, fee as grundgebühr } from "./levies.ts";
export { price };

type Holiday = import("./calendar.ts").Holiday;
type Zone = typeof import("./zones.ts", { with: { "resolution-mode": "import" } });

/** JSDoc imports do not count here: {import("./ignored.ts").X} */
function price(contract: Contract, cubic: Decimal, steps: Step[]): Decimal {
  const band: Band = rates.bands.find((b: Band) => cubic.lte(b.upTo));
  return cubic.mul(band.price);
}

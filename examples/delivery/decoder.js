import { split } from "./frame.js";
import { litres } from "./units.js";
import crc from "npm:crc@4";

export async function decode(bytes) {
  const { header } = split(bytes);
  if (crc(header) !== 0) throw await import("./errors.js");
  return { litres: litres(bytes) };
}

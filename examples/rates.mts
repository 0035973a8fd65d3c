// Rates of the supply area "Süd".
import table from "./süd.csv" with { type: "text", "delimiter": ";" };
import empty from "./empty.json" with {};
export { default as north } from "./nord.csv" with { "type": "text" };
export * from "./west.json" with { type: "json" };
const lazy = (year: number) => import(`./rates-${year}.mts`, { with: { type: "json", ["x"]: "y" } });
const surrogate = () => import("./\uD83D.mts");
export default { table, empty, lazy, surrogate };

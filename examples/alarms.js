/// <reference types="./💧/alarms.d.ts" />
/** Alarms as signs, 💧 leak and 🔋 battery: @type {import("./signs.js").Sign} */ export const leak = "💧";
/* 💧🔋 */ import battery from "./battery.js"; /* ⚠ 50 € */ import { send } from "./send.js";
export const sign = (kind) => "💧🔋⚠".includes(kind) && import("./signs/💧.js");
const priced = "€ é" + "𝛼" + require(`./prices/${"🔋"}.js`);
//# sourceMappingURL=alarms-💧.js.map

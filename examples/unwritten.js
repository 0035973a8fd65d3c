#!/usr/bin/env node
/// <reference types="./nothing.d.ts" />
// A tariff script that was never written.
/* @import {A} from "./a.js" */
/** @import {B} from "./b.js" */
//# sourceMappingURL=unwritten.js.map

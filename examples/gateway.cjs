/* eslint-env node */
const nested = require(require("./where.cjs").decoder);
const spread = require(..."ab");
const plain = require(`./frames/plain.cjs`);
const framed = require(`./frames/${plain.kind}/${plain.version}.cjs`);
const chain = require("./a" + "b" + ".cjs");
const not = require(prefix + "./a.cjs"), none = require();
const optional = require?.("./never.cjs");
// @ts-types='./serial.d.cts'
require("./serial.cjs").open("/dev/ttyUSB0", () => require("./log.cjs")("𝛥t"));

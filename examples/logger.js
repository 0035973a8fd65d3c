<!-- Logger page of the gateways before 2012: a browser without scripts saw one comment.
<!--/ <reference path="./gateway-globals.js" />
var frames = require("./wmbus-frames.js"); <!-- frames of the 868 MHz band
if (frames.count --> 0) {
  <!-- @ts-types="./rates-table.d.ts"
  require("./rates-table.js");
}
/* no longer kept */ --># sourceMappingURL=./logger.js.map

// node module.js MODULE ROUNDS: runs the driver as a WebAssembly module, which has no main and no way to print, and prints what
// driver.c prints on a machine of 32 bits: `values` and 16 hexadecimal digits. Exit status 1 where the driver missed something.
"use strict";
const fs = require("fs");

const [file, rounds] = process.argv.slice(2);
const module_ = new WebAssembly.Module(fs.readFileSync(file));
if (WebAssembly.Module.imports(module_).length !== 0) {
    console.error("driver: the module asks for something that it does not bring");
    process.exit(1);
}
const { run_values, what_was_missed, memory } = new WebAssembly.Instance(module_).exports;
const digest = BigInt.asUintN(64, run_values(Number(rounds)));
console.log("values " + digest.toString(16).padStart(16, "0"));
const missed = what_was_missed();
if (missed !== 0) {
    const bytes = new Uint8Array(memory.buffer).subarray(missed);
    console.error("driver: " + Buffer.from(bytes.subarray(0, bytes.indexOf(0))).toString());
    process.exit(1);
}

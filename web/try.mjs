// Runs a program that web/build made on standard input, in node, and writes what it writes. Its stored run is to come out:
//   node --experimental-wasm-memory64 web/try.mjs web/out/padedit.wasm < crates/padedit/stdin | cmp - crates/padedit/stdout
import fs from 'node:fs';

const input = fs.readFileSync(0);
let at = 0;
let memory;
const bytes = (place, count) => new Uint8Array(memory.buffer, Number(place), Number(count));
const env = {
  host_read(place, most) {
    const taken = input.subarray(at, at + Number(most));
    bytes(place, taken.length).set(taken);
    at += taken.length;
    return BigInt(taken.length);
  },
  host_write(to, place, count) {
    fs.writeSync(to, bytes(place, count));
    return count;
  },
};
const { instance } = await WebAssembly.instantiate(fs.readFileSync(process.argv[2]), { env });
memory = instance.exports.memory;
process.exitCode = instance.exports.main(0, 0n);

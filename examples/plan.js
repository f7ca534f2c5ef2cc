// Plans support for a small part with the wasm port: `ports/build && node examples/plan.js`. A page does the same with bytes it fetched.
//
// The calls are those of include/kitegimlet.h. Pointers and numbers of 32 bits are JavaScript numbers; sizes, lengths and answers are BigInts.
// Buffers stand in the port's own memory, from __heap_base on; the caller shares it out.
'use strict';
const fs = require('fs');
const path = require('path');

const port = fs.readFileSync(path.join(__dirname, '../target/ports/kitegimlet.wasm'));
const kg = new WebAssembly.Instance(new WebAssembly.Module(port)).exports;

// Two layers of 8 by 1 pixels, pitch 100 and overhang 200 micrometres: the upper layer is five pixels longer than the lower one.
const size = [8n, 1n, 2n], settings = [100, 200], planned = 2, ringCount = 8;
const part = kg.__heap_base.value, support = part + 8, rings = support + 8; // rings at an even address
kg.memory.grow(1); // views of the memory are made after it grew, or they go stale
const bytes = new Uint8Array(kg.memory.buffer);
bytes.set([0b11100000, 0b11111111], part);

const answer = kg.kg_plan(...size, ...settings, part, BigInt(planned), support, BigInt(planned), rings, BigInt(ringCount));
const bits = (from) => Number(answer >> from & 0xFFFFn), refusal = bits(0n); // as kg_number, kg_layer and kg_row of the header
const place = refusal === 7 ? ` at layer ${bits(16n)}, row ${bits(32n)}` : ''; // planning's one refusal with a place
if (refusal !== 0) throw new Error(`refused ${refusal}${place}: see docs/REFUSALS.md`);
const hex = Array.from(bytes.subarray(support, support + planned), (byte) => byte.toString(16).padStart(2, '0'));
console.log(`support ${hex.join(' ')}`);
console.log(`rings ${new Uint16Array(kg.memory.buffer, rings, ringCount).join(' ')}`);

// Tries recorded calls on the wasm port: every answer, every buffer and the memory around it must be as recorded.
//
// usage: node replay.js PORT.wasm RECORD [PATIENCE]
//
// RECORD is what the driver writes with --record (tests/record.c has its layout): calls with the answers of the independent
// implementation. Each buffer is lent between guard bytes; where the record says so, one of them ends where the memory ends, so that a
// look past it traps. A call that takes more than PATIENCE seconds (20) is taken for endless. Stops at the first difference and tells the
// case, for `driver --case`. The last line is 'N passed, M failed', over the calls and over what the port asks and offers.
'use strict';
const fs = require('fs');
const { Worker, isMainThread, parentPort, workerData } = require('worker_threads');

const CALLS = ['reach', 'plan', 'clean', 'posts', 'check', 'read', 'part', 'support', 'copy_rings', 'write'];
const LENT = ['part', 'support', 'rings', 'cleaned', 'posts', 'file', 'told', 'out'];
const WIDTH = { part: 1, support: 1, rings: 2, cleaned: 1, posts: 1, file: 1, told: 8, out: 1 };
const USES = { // in the order of the arguments
    reach: [], plan: ['part', 'support', 'rings'], clean: ['part', 'support', 'rings', 'cleaned'], posts: ['part', 'posts'],
    check: ['part', 'support', 'rings'], read: ['file', 'told'], part: ['file'], support: ['file'], copy_rings: ['file', 'rings'], write: ['part', 'support', 'rings', 'out'],
};
const TAKES = { plan: 'sizes', clean: 'sizes', posts: 'sizes', check: 'sizes', write: 'sizes', reach: 'settings' };
const LAST = 2;              // enum place: right before closed memory
const GUARD = 64;
const ZEROS = 80 << 20;      // behind the bytes of a long buffer: more than the longest job
const PAGE = 65536;

// ---- Reading the record

class Source {
    constructor(name) {
        this.file = fs.openSync(name, 'r');
        this.bytes = Buffer.alloc(1 << 20);
        this.start = this.end = 0;
    }

    // Whether so many bytes more are there; they then stand at start.
    has(count) {
        if (this.end - this.start >= count) return true;
        const room = count > this.bytes.length ? Buffer.alloc(2 * count) : this.bytes;
        this.end = this.bytes.copy(room, 0, this.start, this.end);
        this.bytes = room;
        this.start = 0;
        while (this.end < count) {
            const got = fs.readSync(this.file, this.bytes, this.end, this.bytes.length - this.end, null);
            if (got === 0) break;
            this.end += got;
        }
        return this.end >= count;
    }

    // The bytes, good until the next are taken.
    take(count) {
        if (!this.has(count)) throw new Error('the record is cut short');
        this.start += count;
        return this.bytes.subarray(this.start - count, this.start);
    }

    number() { return this.take(8).readBigUInt64LE(); }
    small() { return Number(this.number()); }
    copy(count) { return Buffer.from(this.take(count)); }
}

function takeTrial(from) {
    const t = { number: from.small(), call: CALLS[from.small()], place: from.small(), skew: from.small(), nullForEmpty: from.small() === 1 };
    t.sizes = [from.number(), from.number(), from.number()];
    t.settings = [from.small(), from.small()];
    t.gap = from.number();
    t.radius = from.small();
    t.answer = from.number();
    const lent = LENT.filter((name) => USES[t.call].includes(name)).map((name) => {
        const b = { name, len: from.number(), held: from.small() };
        const changes = from.small() === 1;
        b.before = from.copy(b.held);
        b.after = changes ? from.copy(b.held) : b.before;
        b.long = BigInt(b.held) !== b.len * BigInt(WIDTH[name]);
        return b;
    });
    t.lent = USES[t.call].map((name) => lent.find((b) => b.name === name));
    return t;
}

// ---- Lending

const guard = Buffer.from(Array.from({ length: GUARD }, (_, k) => (0xA5 ^ k * 29) & 255));
const zeros = Buffer.alloc(GUARD);

class Lender {
    constructor(exports) {
        this.memory = exports.memory;
        this.longAt = Math.ceil(exports.__heap_base.value / PAGE) * PAGE; // a stretch that stays all zero between calls
        this.from = this.longAt + ZEROS;
        this.grow(this.from);
    }

    grow(end) {
        const pages = Math.ceil((end - this.memory.buffer.byteLength) / PAGE);
        if (pages > 0) this.memory.grow(pages);
        this.bytes = Buffer.from(this.memory.buffer);
    }

    // Sets where each buffer of a trial stands, and which guards are around it.
    place(t) {
        let at = this.from;
        const short = t.lent.filter((b) => !b.long);
        const last = t.place === LAST && short.length > 0 ? short[t.number % short.length] : null;
        for (const b of t.lent) {
            b.guardedAfter = b !== last;
            b.at = b.long ? this.longAt : Math.ceil((at + GUARD) / 8) * 8 + (WIDTH[b.name] === 1 ? t.skew : 0);
            if (!b.long) at = b.at + b.held + GUARD;
        }
        this.grow(at + (last === null ? 0 : last.held + GUARD));
        if (last !== null) last.at = this.bytes.length - last.held;
    }

    lend(t) {
        this.place(t);
        for (const b of t.lent) {
            if (!b.long) guard.copy(this.bytes, b.at - GUARD);
            if (!b.long && b.guardedAfter) guard.copy(this.bytes, b.at + b.held);
            b.before.copy(this.bytes, b.at);
        }
    }

    // What was written that was not lent, or null.
    trespass(t) {
        for (const b of t.lent) {
            if (!b.long && !this.holds(b.at - GUARD, guard)) return `wrote before ${b.name}`;
            if (b.guardedAfter && !this.holds(b.at + b.held, b.long ? zeros : guard)) return `wrote past ${b.name}`;
        }
        return null;
    }

    // The first buffer that is not as recorded, or null.
    changed(t) {
        const b = t.lent.find((lent) => !this.holds(lent.at, lent.after));
        return b === undefined ? null : `${b.name} at byte ${this.difference(b)}`;
    }

    holds(at, bytes) { return this.bytes.compare(bytes, 0, bytes.length, at, at + bytes.length) === 0; }

    difference(b) {
        const k = b.after.findIndex((byte, i) => byte !== this.bytes[b.at + i]);
        return `${k}: ${this.bytes[b.at + k]} in place of ${b.after[k]}`;
    }

    clear(t) {
        for (const b of t.lent) if (b.long) this.bytes.fill(0, b.at, b.at + b.held + GUARD);
    }
}

// ---- Calling

function wordsOf(t) {
    const words = [];
    if (TAKES[t.call] === 'sizes') words.push(...t.sizes);
    if (TAKES[t.call] !== undefined) words.push(...t.settings);
    if (t.call === 'clean') words.push(BigInt.asIntN(64, t.gap));
    if (t.call === 'posts') words.push(t.radius);
    for (const b of t.lent) words.push(t.nullForEmpty && b.len === 0n ? 0 : b.at, BigInt.asIntN(64, b.len));
    return words;
}

// What is wrong with one call, or null.
function tryCall(port, lender, t) {
    lender.lend(t);
    let answer;
    try {
        answer = BigInt.asUintN(64, port[`kg_${t.call}`](...wordsOf(t)));
    } catch (error) {
        return `the call broke: ${error.message}`;
    }
    const trespass = lender.trespass(t);
    if (trespass !== null) return `the call ${trespass}`;
    if (answer !== t.answer) return `answer ${answer.toString(16)} in place of ${t.answer.toString(16)} (hexadecimal)`;
    return lender.changed(t);
}

// ---- The run: calls are made in a worker, so that the main thread sees one that does not end.

// What is wrong with what the port asks and offers, or null.
function wrongFace(module) {
    const asked = WebAssembly.Module.imports(module).map((i) => i.name);
    const offered = WebAssembly.Module.exports(module).map((e) => e.name);
    const missing = CALLS.map((call) => `kg_${call}`).filter((name) => !offered.includes(name));
    if (asked.length > 0) return `the port asks for ${asked}`;
    return missing.length > 0 ? `the port lacks ${missing}` : null;
}

function replay(portFile, recordFile, progress) {
    const module = new WebAssembly.Module(fs.readFileSync(portFile));
    const wrong = wrongFace(module);
    if (wrong !== null) return { said: wrong, passed: 0, failed: 1 };
    const port = new WebAssembly.Instance(module).exports;
    const lender = new Lender(port);
    const from = new Source(recordFile);
    const counts = Object.fromEntries(CALLS.map((call) => [call, 0]));
    while (from.has(1)) {
        const t = takeTrial(from);
        progress.set([progress[0] + 1, t.number, CALLS.indexOf(t.call)]);
        const difference = tryCall(port, lender, t);
        if (difference !== null) return { said: `difference in ${t.call}, case ${t.number}: ${difference}`, passed: 0, failed: 1 };
        lender.clear(t);
        counts[t.call]++;
    }
    const met = CALLS.filter((call) => counts[call] > 0).length;
    const said = `replay: ${progress[0]} calls, ${CALLS.map((call) => `${counts[call]} of ${call}`).join(', ')}`;
    return { said, passed: 1 + met, failed: CALLS.length - met };
}

function watch(words, patience) {
    const progress = new Int32Array(new SharedArrayBuffer(12)); // calls made; case and call of the one being made
    const worker = new Worker(__filename, { workerData: { words, progress } });
    let seen = 0;
    const timer = setInterval(() => {
        const said = `difference in ${CALLS[progress[2]]}, case ${progress[1]}: the call did not end`;
        if (progress[0] === seen && seen > 0) end({ said, passed: 0, failed: 1 });
        seen = progress[0];
    }, patience * 1000);
    const end = ({ said, passed, failed }) => {
        clearInterval(timer);
        console.log(`${said}\n${passed} passed, ${failed} failed`);
        process.exitCode = failed === 0 ? 0 : 1;
        worker.terminate();
    };
    worker.on('message', end);
    worker.on('error', (error) => end({ said: error.stack, passed: 0, failed: 1 }));
}

if (!isMainThread) parentPort.postMessage(replay(...workerData.words, workerData.progress));
else if (process.argv.length >= 4) watch(process.argv.slice(2, 4), Number(process.argv[4] || 20));
else throw new Error('usage: node replay.js PORT.wasm RECORD [PATIENCE]');

// The frames of frames.c for wasm32: loads the module that the first word names and answers each call on standard input with it. Assumes
// node, and a module that exports its memory, __heap_base and the five functions; a size is a 64-bit number there, a pointer has 32 bits.
import { readFileSync, readSync, writeSync } from 'node:fs';

const HEAD = 28;
const AREAS = 5;
const AREA_MOST = 1 << 18;
const PAGE = 1 << 16;
const CALLS = ['vaskunoor_read', 'vaskunoor_allocate', 'vaskunoor_check_assignment', 'vaskunoor_make_tables', 'vaskunoor_check_tables'];
const [REQUEST, ASSIGNMENT, TABLE, OUTPUT, DETAILS] = [0, 1, 2, 3, 4];
const TAKEN = [[REQUEST], [REQUEST, 'budget', OUTPUT], [REQUEST, ASSIGNMENT], [REQUEST, ASSIGNMENT, OUTPUT], [REQUEST, ASSIGNMENT, TABLE]];

// ---- standard input and output

const clock = new Int32Array(new SharedArrayBuffer(4));

// what `move` moves, tried again after a moment for as long as the pipe is not ready; 0 at the end of the input
function moved(move) {
    for (;;) {
        try {
            return move();
        } catch (error) {
            if (error.code === 'EOF') return 0;
            if (error.code !== 'EAGAIN') throw error;
            Atomics.wait(clock, 0, 0, 1);
        }
    }
}

const input = Buffer.alloc(HEAD + AREAS * AREA_MOST);
let start = 0;
let end = 0;

// the next bytes of the input, good until the next call, or null where it ends before them
function take(size) {
    if (start + size > input.length) {
        input.copyWithin(0, start, end);
        [start, end] = [0, end - start];
    }
    while (end - start < size) {
        const got = moved(() => readSync(0, input, end, input.length - end, null));
        if (got === 0) return null;
        end += got;
    }
    start += size;
    return input.subarray(start - size, start);
}

function give(bytes) {
    for (let at = 0; at < bytes.length;) at += moved(() => writeSync(1, bytes, at, bytes.length - at));
}

// ---- the library

const module = new WebAssembly.Module(readFileSync(process.argv[2]));
const library = new WebAssembly.Instance(module).exports;
const base = Math.ceil(library.__heap_base.value / PAGE) * PAGE;
library.memory.grow(Math.ceil((base + AREAS * AREA_MOST - library.memory.buffer.byteLength) / PAGE));
const memory = Buffer.from(library.memory.buffer);
const address = Array.from({ length: AREAS }, (_, area) => base + area * AREA_MOST);

// copies the areas in; false where one is too long or missing
function takeAreas(sizes) {
    return sizes.every((size, area) => {
        const bytes = size > AREA_MOST ? null : take(size);
        if (bytes !== null) bytes.copy(memory, address[area]);
        return bytes !== null;
    });
}

function answer(call, budget, sizes) {
    const word = (taken) => (taken === 'budget' ? [budget] : [address[taken], BigInt(sizes[taken])]);
    return library[CALLS[call]](...[...TAKEN[call], DETAILS].flatMap(word));
}

// answers one frame; false where the input ends
function exchange() {
    const head = take(HEAD);
    if (head === null) return false;
    const [call, budget, ...sizes] = Array.from({ length: 2 + AREAS }, (_, i) => head.readUInt32LE(4 * i));
    if (call >= CALLS.length || !takeAreas(sizes)) process.exit(1);
    const number = Buffer.alloc(4);
    number.writeUInt32LE(answer(call, budget, sizes) >>> 0);
    const left = (area) => memory.subarray(address[area], address[area] + sizes[area]);
    give(Buffer.concat([number, left(OUTPUT), left(DETAILS)]));
    return true;
}

while (exchange());

"use strict";
// The calls of the proved library, as bindings/c/renamer.h has them. Handles and answers are in the memory that the
// module and the page share.
const KINDS = ["bitonic", "periodic", "tree"];
// The name of each status, and the sentence that says what it means: those of the header.
const STATUSES = @STATUSES@;
const BYTES = 8;

// What is thrown if the library returns another status than 0.
class Refused extends Error {
    constructor(status) {
        const [name, meaning] = STATUSES[status];
        super(`${meaning} (${name}, ${status})`);
        this.status = status;
    }
}

class Library {
    constructor(exports) {
        this.exports = exports;
        this.makeRoom(64);
    }

    // Room for so many answers of one call.
    makeRoom(words) {
        if (this.out) this.exports.free(this.out);
        this.size = words;
        this.out = this.memory(words);
    }

    memory(words) {
        const at = this.exports.malloc(BigInt(BYTES * words));
        if (at === 0n) throw Error("the browser gave no memory");
        return at;
    }

    // A handle that is none.
    handle() {
        const at = this.memory(1);
        new DataView(this.exports.memory.buffer).setBigUint64(Number(at), 0n, true);
        return at;
    }

    call(name, ...words) {
        const status = this.exports[`renamer_${name}`](...words);
        if (status) throw new Refused(status);
    }

    answers(count) { return new BigUint64Array(this.exports.memory.buffer, Number(this.out), count); }

    number(name, handle) {
        this.call(name, handle, this.out);
        return Number(this.answers(1)[0]);
    }

    // A list of a closed floor, which has this many numbers.
    list(name, quiet, count) {
        if (count > this.size) this.makeRoom(count);
        this.call(name, quiet, this.out, BigInt(count));
        return [...this.answers(count)];
    }

    open(lane, kind, width, quota) { this.call("open", lane, KINDS.indexOf(kind), width, BigInt(quota)); }

    // Lets the lane's first client on a wire go by its end.
    step(lane, wire) {
        this.call("step", lane, BigInt(wire), this.out);
        const [, hasLeft, place, number, next] = [...this.answers(5)].map(Number);
        return {hasLeft: hasLeft === 1, place, number, next};
    }

    // Frees what handles have, and the handles.
    release(free, handles) {
        for (const handle of handles) {
            this.exports[`renamer_${free}`](handle);
            this.exports.free(handle);
        }
    }
}

// Where each wire of a network ends, as the library itself shows: as many clients as the width, one at each entry in
// turn, come by every wire, and those on the lowest wire go first.
function wiringOf(library, kind, width) {
    const lane = library.handle(), ends = [], outputs = [];
    library.open(lane, kind, width, width);
    const entries = library.number("entries", lane);
    for (let id = 0; id < width; ++id) library.call("enter", lane, BigInt(id), BigInt(id % entries));
    while (library.number("inside", lane) > 0) {
        const wire = library.number("lowest", lane), moved = library.step(lane, wire);
        ends[wire] = {isExit: moved.hasLeft, number: moved.place};
        if (!moved.hasLeft) (outputs[moved.place] ??= [])[moved.number % 2] = moved.next;
    }
    library.release("free", [lane]);
    const exitWires = [];
    ends.forEach(({isExit, number}, wire) => { if (isExit) exitWires[number] = wire; });
    return {kind, width, entries, ends, outputs, exitWires, ...levelsOf(ends, outputs)};
}

// The balancer that each wire comes from, and for each balancer how many others come before it on the longest way.
function levelsOf(ends, outputs) {
    const sources = [], levels = outputs.map(() => 0);
    outputs.forEach((pair, balancer) => pair.forEach(wire => { sources[wire] = balancer; }));
    ends.forEach(({isExit, number}, wire) => {
        if (!isExit && wire in sources) levels[number] = Math.max(levels[number], levels[sources[wire]] + 1);
    });
    return {sources, levels, depth: 1 + Math.max(...levels)};
}

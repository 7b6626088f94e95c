"use strict";
// What checks/long/walk looks at by the scripts of docs/walk.html, without the page: Node runs it.

// The wirings, as `renamer show` prints them.
function wiringLines(library, kind, width) {
    const {ends, outputs, depth} = wiringOf(library, kind, width);
    return [
        `network ${kind} width ${width} balancers ${outputs.length} depth ${depth}`,
        ...ends.map(({isExit, number}, wire) => `wire ${wire} ${isExit ? "exit" : "balancer"} ${number}`),
        `end wires ${ends.length}`,
    ].map(line => `${line}\n`).join("");
}

// What a floor answers to a schedule.
function answered(library, {kind, width, carries, schedule}) {
    const floor = new Floor(library, wiringOf(library, kind, width), carries);
    const lines = [floor.heading(), ...schedule.flatMap(command => floor.run(command)), floor.end()];
    floor.release();
    return lines.map(line => `${line}\n`).join("");
}

// What a floor answers to a text, or why that is no schedule.
function answeredText(library, text) {
    try {
        return answered(library, {kind: "bitonic", width: 4, carries: false, schedule: commandsOfText(text)});
    } catch (why) {
        return why.message;
    }
}

// How much memory there is after so many floors, in pages of 64 KiB: it grows no more than at first.
function pagesAfter(library, count) {
    const schedule = ["enter,1,0", "step,1,", "enter,2,0"];
    for (let i = 0; i < count; ++i) answered(library, {kind: "tree", width: 8, schedule});
    return library.exports.memory.buffer.byteLength / 65536;
}

// What is wrong with the module's memory: its addresses have 32 bits, and it refuses what is too much, and goes on.
function wrongMemory({memory, malloc}) {
    const wrong = [];
    try {
        memory.grow(0);
        for (const size of [2n ** 32n - 16n, 2n ** 32n, 2n ** 33n, 2n ** 40n]) {
            if (malloc(size) !== 0n) wrong.push(`${size} bytes are not refused`);
        }
        if (malloc(100n) === 0n) wrong.push("no memory is left after a refusal");
    } catch (why) {
        wrong.push(`the memory: ${why.message}`);
    }
    return wrong;
}

function foundByNode(cases) {
    const module = new WebAssembly.Module(Buffer.from(MODULE, "base64"));
    const library = new Library(new WebAssembly.Instance(module).exports);
    return {
        wirings: cases.wirings.map(([kind, width]) => wiringLines(library, kind, width)),
        answers: cases.schedules.map(it => answered(library, it)),
        texts: cases.texts.map(text => answeredText(library, text)),
        pages: [pagesAfter(library, 10), pagesAfter(library, 2000)],
        wrong: wrongMemory(new WebAssembly.Instance(module).exports),
    };
}

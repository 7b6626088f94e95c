"use strict";
// The networks that a network is made of, each with the levels and rows of its balancers, both from a first to a last.
const depthOfBitonic = width => Math.log2(width) * (Math.log2(width) + 1) / 2;

function partsOf({kind, width, depth}) {
    const all = [0, width - 1], levels = Math.log2(width);
    if (width === 2 || kind === "tree") return [];
    if (kind === "periodic") {
        return Array.from({length: levels}, (_, at) =>
            ({words: `block ${at}`, levels: [levels * at, levels * at + levels - 1], rows: all}));
    }
    const half = width / 2, before = depthOfBitonic(half), words = `bitonic ${half}`;
    return [
        {words, levels: [0, before - 1], rows: [0, half - 1]},
        {words, levels: [0, before - 1], rows: [half, width - 1]},
        {words: `merger ${width}`, levels: [before, depth - 1], rows: all},
    ];
}

// The wires by which clients come out of a part, from the upper row to the lower.
function wiresBehind({levels: [, last], rows: [top, bottom]}, {ends, sources, levels, depth}, rows) {
    const endLevel = wire => ends[wire].isExit ? depth : levels[ends[wire].number];
    const isBehind = wire => rows[wire] >= top && rows[wire] <= bottom
        && wire in sources && levels[sources[wire]] <= last && endLevel(wire) > last;
    return ends.map((_, wire) => wire).filter(isBehind).sort((a, b) => rows[a] - rows[b]);
}

"use strict";
// The examples of the page.

// The records of an address by which so many clients come in, from the first on, each by its entry.
function enters(count, first, entryOf) {
    return Array.from({length: count}, (_, at) => `e${first + at}.${entryOf(at)}`);
}

// Each of so many clients takes so many steps, one after another in each round.
function rounds(count, first, steps) {
    return Array.from({length: steps * count}, (_, at) => `s${first + at % count}`);
}

// By a tree: all but the last of the first clients stop before their exits, and those who come in later go by them.
function worstOrder(width) {
    const depth = Math.log2(width), late = 101 + width;
    const overtake = at => [`e${late + at}.0`, ...rounds(1, late + at, depth + 1)];
    return [
        ...enters(width, 101, () => 0), ...rounds(width, 101, depth), `s${late - 1}`,
        ...Array.from({length: width - 1}, (_, at) => overtake(at)).flat(), ...rounds(width - 1, 101, 1),
    ];
}

// Each has its title, the network, the schedule as in an address, and what is to be seen.
const EXAMPLES = [
    ["overtaking", "bitonic-4", "e17.0,e5.1,e99.2,s17,s5,s5,s99,s5,s5,s99,s17,s99,s17,s99,s17",
        "17 comes in before 5, and 5 leaves before 17: it gets the name 0."],
    ["names not in order of time", "tree-2", "e101.0,s101,e102.0,s102,s102,e103.0,s103,s103,s101",
        "102 has left with the name 1 before 103 comes in, and 103 gets the name 0."],
    ["counts differ by at most one", "bitonic-8",
        [...enters(10, 101, at => [0, 0, 5][at % 3]), ...rounds(10, 101, 7)].join(),
        "All come in by entries 0 and 5. After balancers 4 and 5, and after 10 and 11, a bitonic network of width 4 "
        + "ends: the counts below its four wires differ by at most one, and so do those at the exits."],
    ["a tree, most out of order", "tree-8", worstOrder(8).join(),
        "Clients 101 to 107 are before exits 0 to 6, and 108 leaves by exit 7, with the greatest name that it can "
        + "have, 7. All who come in after that overtake those before exits, and get the lower names."],
];

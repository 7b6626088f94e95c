"use strict";
// What the page says of a floor, in sentences: of the last step, and of what is so now.
const ORDINALS = ["first", "second", "third", "fourth", "fifth", "sixth", "seventh", "eighth", "ninth", "tenth"];

// The word for a place that is counted from 0.
function ordinal(number) {
    const count = number + 1, isTeen = Math.floor(count / 10) % 10 === 1;
    return ORDINALS[number] ?? `${count}${["th", "st", "nd", "rd"][isTeen ? 0 : count % 10] ?? "th"}`;
}

const are = count => `${count} ${count === 1 ? "is" : "are"}`;

// Of each refusal what hinders, and whether it may be done later.
const REFUSALS = {
    AlreadyIn: ({id}) => `Not done: client ${id} is in this epoch already`,
    NoSuchEntry: ({entry}, {wiring}) => `Not done: there is no entry ${entry}: `
        + (wiring.entries === 1 ? "a tree has only entry 0" : `this network has entries 0 to ${wiring.entries - 1}`),
    Stranger: ({id}) => `Not done: client ${id} has not come in`,
    HasName: ({id, more}) => `Not done: client ${id} has left already, with the name ${more}`,
    NotQuiet: ({more}) => `Not yet: an epoch closes when nobody is inside, and ${are(more)}`,
};

// Why the last command was refused, with the library's status in brackets, or else the answer of `renamer replay`.
function refusedWords(floor) {
    const {last} = floor, [name] = STATUSES[last.status] ?? [];
    return `${REFUSALS[last.why](last, floor)} (${name ? `${name}, ${last.status}` : last.why}).`;
}

const STEPS = {
    enter: ({id, entry}) => `${id} comes in by entry ${entry}.`,
    pass: ({id, balancer, number, output, wire}) =>
        `${id} is the ${ordinal(number)} at balancer ${balancer}: ${output ? "down" : "up"}, to wire ${wire}.`,
    leave: ({id, exit, number, name}) =>
        `${id} is the ${ordinal(number)} to leave by exit ${exit}: its name is ${name}.`,
    turn: (_, {closed: {epoch, counts, holders}}) =>
        `Epoch ${epoch} is closed: ${tightWords("its", holders.length)}. ${exitWords(counts)}`,
};

// The last step, as a sentence, or nothing if there was none.
function stepWords(floor) {
    const {last} = floor;
    return last && last.what !== "refused" ? STEPS[last.what](last, floor) : "";
}

// What is so now.
function stateWords(floor) {
    const all = floor.clients.size;
    if (!all) return `${floor.closed ? "The next epoch has begun. " : ""}Nobody has come in: click an entry.`;
    return floor.inside ? insideWords(floor, all) : quietWords(floor, all);
}

function insideWords(floor, all) {
    return `${all} came in, ${are(floor.inside)} inside, and ${givenWords(floor, all)}.`;
}

function givenWords({left: {length: given}, greatest}, all) {
    const below = greatest < all ? `below ${all}` : `and one is NOT below ${all}`;
    return given === 0 ? "no name is given yet" : given === 1 ? `one name is given, ${below}`
        : `${given} names are given, ${greatest < all ? "each " : ""}${below}`;
}

function quietWords(floor, all) {
    const counts = floor.wiring.exitWires.map(wire => floor.came[wire]);
    const names = floor.isTight() ? tightWords("the", all) : "the names are NOT without a gap";
    return `Nobody is inside: ${names}. ${exitWords(counts)}`;
}

function tightWords(whose, count) {
    return count === 0 ? "nobody came in" : count === 1 ? `${whose} client has the name 0`
        : `${whose} ${count} clients have the names 0 to ${count - 1}`;
}

const exitWords = counts => `From exit 0 on, so many left by each: ${counts.join(", ")}.`;

// One who came in after another had left, and got a lower name.
function turnedWords({turned}) {
    if (!turned) return "";
    return `Not in order of time: ${turned.late} came in after ${turned.early} had left, and got a lower name.`;
}

// The names below the greatest that nobody has yet.
function missingWords(floor) {
    const missing = [];
    for (let name = 0; name < floor.greatest; ++name) if (!(name in floor.holders)) missing.push(name);
    if (!missing.length) return "";
    return `${missing.length === 1 ? "The name" : "The names"} ${missing.join(", ")} `
        + `${missing.length === 1 ? "is" : "are"} still to be given: to those inside, or to who comes in.`;
}

// To which wire a client would go next.
function wouldWords(it, floor) {
    if (!it || it.wire === null) return "";
    const {isExit, number} = floor.wiring.ends[it.wire];
    if (isExit) return `${it.id} would leave by exit ${number}.`;
    const output = floor.next[number], wire = floor.wiring.outputs[number][output];
    return `${it.id} would go by balancer ${number}, ${output ? "down" : "up"} to wire ${wire}.`;
}

"use strict";
// Schedules: as CSV, which is read as the program reads it, and as they stand in an address.
const HEADER = "op,client,wire", MOST_NUMBER = 2n ** 64n - 1n;
// What is wrong with a record, by the causes of the program.
const CAUSES = {
    Header: `the first line is not ${HEADER}`,
    FieldCount: "it has not three fields",
    Op: "the first field is not enter, step or turn",
    ClientNumber: "the client is no number below 2^64 in 1 to 20 digits, or stands in a turn",
    WireNumber: "the wire is no such number, or stands in a step or a turn",
};

const isNumber = text => /^\d{1,20}$/.test(text) && BigInt(text) <= MOST_NUMBER;
const plain = number => String(BigInt(number));

// The records of a CSV text, each a list of fields. A quoted field goes on to its quote or to the end, a quote in it is
// doubled, what follows its end is part of it, and a line without anything is no record.
function recordsOf(text) {
    const records = [], field = /(?:"([^"]*(?:""[^"]*)*)(?:"([^,\r\n]*)|$)|([^,\r\n]*))(,|\r|\n|$)/y;
    let fields = [];
    field.lastIndex = text.startsWith("\ufeff") ? 1 : 0;
    while (field.lastIndex < text.length || fields.length) {
        if (!fields.length && /[\r\n]/.test(text[field.lastIndex])) {
            field.lastIndex += 1;
            continue;
        }
        const [, quoted, behind, bare, end] = field.exec(text);
        fields.push(bare ?? quoted.replaceAll('""', '"') + (behind ?? ""));
        if (end === ",") continue;
        records.push(fields);
        fields = [];
    }
    return records;
}

// The command of a record, in the form that commands have in the page, or the cause why it is none.
function commandOf(fields) {
    const [op, client, wire] = fields;
    if (fields.length !== 3) return {cause: "FieldCount"};
    if (!["enter", "step", "turn"].includes(op)) return {cause: "Op"};
    if (op === "turn" ? client !== "" : !isNumber(client)) return {cause: "ClientNumber"};
    if (op === "enter" ? !isNumber(wire) : wire !== "") return {cause: "WireNumber"};
    return {command: [op, op === "turn" ? "" : plain(client), op === "enter" ? plain(wire) : ""].join()};
}

function fault(record, cause) { return Error(`record ${record}: ${cause}: ${CAUSES[cause]}`); }

// The commands of a schedule.
function commandsOfText(text) {
    const [header, ...records] = recordsOf(text);
    if (header?.length !== 3 || header.join() !== HEADER) throw fault(0, "Header");
    return records.map((fields, at) => {
        const {command, cause} = commandOf(fields);
        if (cause) throw fault(at + 1, cause);
        return command;
    });
}

const textOf = commands => [HEADER, ...commands].map(line => `${line}\n`).join("");

// A command as it stands in an address, and back.
function shortOf(command) {
    const [op, client, entry] = command.split(",");
    return op === "enter" ? `e${client}.${entry}` : op === "step" ? `s${client}` : "t";
}

function longOf(short) {
    return short.replace(/^e(\d+)\.(\d+)$/, "enter,$1,$2").replace(/^s(\d+)$/, "step,$1,").replace(/^t$/, "turn,,");
}

// The commands of an address.
function commandsOf(text) {
    return (text ? text.split(",") : []).map((short, at) => {
        const {command} = commandOf(longOf(short).split(","));
        if (!command) throw Error(`record ${at + 1} is none of a schedule: ${short.slice(0, 60)}`);
        return command;
    });
}

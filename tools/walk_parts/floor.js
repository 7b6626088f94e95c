"use strict";
// A floor of the library on which each client walks by a lane of its own, as if by a thread of its own: so any order
// can be chosen. What it answers to a command are the lines that `renamer replay` prints for it.
const QUOTA = 4096;

class Floor {
    constructor(library, wiring, carries) {
        Object.assign(this, {library, wiring, carries, epoch: 0, closed: null, last: null});
        this.main = library.handle();
        this.quiet = library.handle();
        library.open(this.main, wiring.kind, wiring.width, QUOTA);
        this.next = wiring.outputs.map(() => 0);
        this.begin();
    }

    // An epoch begins with nobody.
    begin() {
        this.clients = new Map();
        this.time = this.inside = 0;
        // How many came to each wire.
        this.came = this.wiring.ends.map(() => 0);
        // How many left by each exit.
        this.gone = this.wiring.exitWires.map(() => 0);
        // Who got each name, in the order in which they left, and the greatest name.
        this.left = [];
        this.holders = [];
        this.greatest = -1;
        // Those who left with a greater name than all before them, and one who came in after another had left and got a
        // lower name, with that other.
        this.records = [];
        this.turned = null;
    }

    // Does a command, and returns the lines. What happened is kept as `last`.
    run(command) {
        const [op, id, entry] = command.split(",");
        return op === "turn" ? this.turn() : op === "enter" ? this.enter(id, entry) : this.step(id);
    }

    // Refuses a command by a reply of `renamer replay`; the status is the library's, if it was asked.
    refuse(reply, what, status = null) {
        const [op, why] = reply.split(" ");
        this.last = {what: "refused", why, status, ...what};
        return [`refused ${[op, what.id, why, what.more].filter(it => it !== undefined).join(" ")}`];
    }

    enter(id, entry) {
        // An entry that is not there is the library's to refuse, and comes first.
        if (this.clients.has(id) && Number(entry) < this.wiring.entries) return this.refuse("enter AlreadyIn", {id});
        const {library, main} = this, lane = library.handle();
        try {
            library.call("split", main, 1n, lane);
        } catch (refused) {
            library.release("free", [lane]);
            throw this.clients.size < QUOTA ? refused : Error(`an epoch has ${QUOTA} clients at most here`);
        }
        try {
            library.call("enter", lane, BigInt(id), BigInt(entry));
        } catch (refused) {
            this.takeIn(lane);
            library.release("free", [lane]);
            return this.refuse("enter NoSuchEntry", {id, entry}, refused.status);
        }
        return this.letIn({id, lane, entry: Number(entry)});
    }

    letIn({id, lane, entry}) {
        this.time += 1;
        this.inside += 1;
        this.came[entry] += 1;
        this.clients.set(id, {id, lane, entry, wire: entry, came: this.time, since: this.time});
        this.last = {what: "enter", id, entry};
        return [`enter ${id} wire ${entry}`];
    }

    step(id) {
        const it = this.clients.get(id);
        if (!it) return this.refuse("step Stranger", {id});
        let moved;
        try {
            moved = this.library.step(it.lane, it.wire ?? 0);
        } catch (refused) {
            return this.refuse("step HasName", {id, more: it.name}, refused.status);
        }
        it.since = ++this.time;
        return moved.hasLeft ? this.leave(it, moved) : this.pass(it, moved);
    }

    pass(it, {place, number, next}) {
        const output = this.wiring.outputs[place].indexOf(next);
        it.wire = next;
        this.came[next] += 1;
        this.next[place] = 1 - output;
        this.last = {what: "pass", id: it.id, balancer: place, number, output, wire: next};
        return [`pass ${it.id} balancer ${place} number ${number} wire ${next}`];
    }

    leave(it, {place, number, next}) {
        Object.assign(it, {wire: null, exit: place, name: next, left: this.time});
        this.inside -= 1;
        this.gone[place] += 1;
        this.note(it);
        this.takeIn(it.lane);
        this.last = {what: "leave", id: it.id, exit: place, number, name: next};
        return [`leave ${it.id} exit ${place} visit ${number} name ${next}`];
    }

    // Notes who has a name, and whether one who had left before this one came in has a greater name.
    note(it) {
        this.left.push(it);
        this.holders[it.name] = it.id;
        if (!this.turned) {
            const early = this.records.findLast(({left}) => left < it.came);
            if (early && early.name > it.name) this.turned = {late: it.id, early: early.id};
        }
        if (it.name < this.greatest) return;
        this.greatest = it.name;
        this.records.push(it);
    }

    // Whether the names that were given are those below their number, each once.
    isTight() {
        const count = this.left.length;
        return this.greatest + 1 === count && new Set(this.left.map(it => it.name)).size === count;
    }

    // Hands a lane back, and takes what it has into the main one: its handle is none then.
    takeIn(lane) {
        this.library.call("hand_back", lane);
        this.library.call("join", this.main);
    }

    // Closes the epoch, and opens the next one.
    turn() {
        const {library, main, quiet, wiring} = this;
        try {
            library.call("close", main, quiet);
        } catch (refused) {
            return this.refuse("turn NotQuiet", {more: this.inside}, refused.status);
        }
        const clients = library.number("quiet_clients", quiet);
        const counts = library.list("counts", quiet, wiring.width), holders = library.list("holders", quiet, clients);
        if (this.carries) library.call("open_after", main, quiet, BigInt(QUOTA));
        else library.open(main, wiring.kind, wiring.width, QUOTA);
        if (!this.carries) this.next.fill(0);
        this.closed = {epoch: this.epoch, counts, holders: holders.map(String)};
        this.epoch += 1;
        this.releaseLanes();
        this.begin();
        this.last = {what: "turn"};
        return [
            `turn epoch ${this.closed.epoch} clients ${clients}`,
            ...counts.map((count, exit) => `exit ${exit} count ${count}`),
            ...holders.map((client, name) => `name ${name} client ${client}`),
        ];
    }

    // The last first: so memory that is given back comes before what is free already, and is joined to it at once.
    releaseLanes() { this.library.release("free", [...this.clients.values()].map(it => it.lane).reverse()); }

    release() {
        this.releaseLanes();
        this.library.release("free", [this.main]);
        this.library.release("free_quiet", [this.quiet]);
    }

    heading() {
        const {kind, width, outputs, depth} = this.wiring;
        return `network ${kind} width ${width} balancers ${outputs.length} depth ${depth}`;
    }

    end() { return `end epoch ${this.epoch} entered ${this.clients.size} inside ${this.inside}`; }
}

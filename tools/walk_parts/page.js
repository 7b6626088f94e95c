"use strict";
// The page: which network, which commands so far and at what moment of them, and what buttons, keys and clicks do.
// So many commands a schedule has at most.
const MOST_COMMANDS = 20000;
// A finger wants so many pixels.
const FINGER = 44;
// So many commands are done again at once. Of longer walks the page says how far it is, each so many milliseconds.
const SHORT_WALK = 1000, SLICE = 60;
// Who hurries waits as long as others so many times, then each time this part of it, and so many milliseconds at least.
const UNHURRIED = 20, SHORTER = 0.8, LEAST_WAIT = 40;
// What may be shown beside a network. A stop of the lesson shows one of them at most, until it ends.
const EXTRAS = ["parts-seen", "loads-seen"];
// Who waits when the page opens.
const WAITING = "e101.0,e102.1,e103.3";

const $ = id => document.getElementById(id);
const random = below => Math.floor(Math.random() * below);

class Page {
    constructor(library) {
        Object.assign(this, {library, floor: null, timer: null, fault: "", commands: [], done: 0, lesson: null});
        this.narrow = matchMedia("(max-width: 640px)");
        this.open("bitonic", 4, false, commandsOf(WAITING));
        this.isWelcome = true;
    }

    // Opens a network, with a schedule of which so many commands are done.
    open(kind, width, carries, commands, done = commands.length) {
        if (commands.length > MOST_COMMANDS) throw Error(`a schedule has ${MOST_COMMANDS} records at most here`);
        const wiring = wiringOf(this.library, kind, width);
        if (this.lesson !== null) this.showExtra(null);
        Object.assign(this, {wiring, carries, commands, hint: "", lesson: null, tries: 0, marked: null});
        this.isWelcome = false;
        this.draw();
        this.goTo(Math.min(done, commands.length));
        $("frame").scrollTo(0, 0);
    }

    showExtra(shown) { for (const id of EXTRAS) $(id).checked = id === shown; }

    draw() { this.drawing = new Drawing($("network"), this.wiring, this.places()); }

    // The layout, in which entries are as high and wide as a finger wants them if the window is narrow.
    places() {
        if (!this.narrow.matches) return new Places(this.wiring);
        const first = new Places(this.wiring, FINGER), least = getComputedStyle($("network")).getPropertyValue("--least");
        const scale = Math.max(Number(least) / first.font, Math.min(1, $("frame").clientWidth / first.width));
        return new Places(this.wiring, 1.05 * FINGER / scale);
    }

    // Does the commands before a moment again, from nothing: at once, or after this is said.
    goTo(moment) {
        Object.assign(this, {done: 0, until: moment, hasOldFloor: true});
        if (moment <= SHORT_WALK) this.catchUp(Infinity);
    }

    // Does so many of them as a slice of time allows.
    catchUp(slice = SLICE) {
        if (this.hasOldFloor) this.openFloor();
        for (const begin = performance.now(); this.isBehind() && performance.now() - begin < slice;) this.perform();
    }

    openFloor() {
        this.floor?.release();
        const floor = new Floor(this.library, this.wiring, this.carries);
        Object.assign(this, {floor, answers: [floor.heading()], last: null, hasOldFloor: false});
    }

    isBehind() { return this.done < this.until; }

    // A command that cannot be done is not part of the walk, nor is what comes after it.
    perform() {
        try {
            this.answers.push(...this.floor.run(this.commands[this.done]));
        } catch (why) {
            this.commands.length = this.until = this.done;
            throw why;
        }
        this.last = this.floor.clients.get(this.floor.last.id) ?? null;
        if (this.floor.last.what === "leave") this.last.leftAfter = this.done;
        this.done += 1;
    }

    forth() {
        if (this.done === this.commands.length) return this.stop();
        this.perform();
        this.until = this.done;
        this.isWelcome = false;
        if (this.floor.last.what === "leave" && !this.floor.inside) this.tries += 1;
    }

    // Does a new command: what stood behind this moment is left out.
    act(command) {
        if (this.done === MOST_COMMANDS) throw Error(`a schedule has ${MOST_COMMANDS} records at most here`);
        this.commands.length = this.done;
        this.commands.push(command);
        this.hint = "";
        this.forth();
    }

    // ---- what buttons do

    inside() { return [...this.floor.clients.values()].filter(it => it.wire !== null); }

    letIn(entry) {
        const taken = [...this.floor.clients.keys()].map(Number).filter(it => it < 1e9);
        this.act(`enter,${Math.max(100, ...taken) + 1},${entry}`);
    }

    letInMany() {
        const count = Math.min(256, Math.max(1, Math.floor(Number($("count").value)) || 1));
        for (let i = 0; i < count; ++i) this.letIn(random(this.wiring.entries));
    }

    letInEach() {
        for (let entry = 0; entry < this.wiring.entries; ++entry) this.letIn(entry);
    }

    stepByRule() {
        const here = this.inside();
        if (here.length) this.act(`step,${RULES[$("rule").value](here).id},`);
        if (!this.floor.inside) this.stop();
    }

    // Repeats something until it stops itself, or a button does.
    repeat(name, what, hurries = false) {
        this.running = name;
        const again = count => {
            const wait = Number($("speed").value), part = hurries ? SHORTER ** Math.max(0, count - UNHURRIED + 1) : 1;
            const next = () => { this.attempt(what); if (this.timer) again(count + 1); };
            this.timer = setTimeout(next, Math.max(LEAST_WAIT, part * wait));
        };
        again(0);
    }

    stop() {
        clearTimeout(this.timer);
        Object.assign(this, {timer: null, running: ""});
    }

    play() {
        if (this.done === this.commands.length) this.goTo(0);
        this.repeat("play", () => { this.forth(); if (this.done === this.commands.length) this.stop(); });
    }

    openAt(network, schedule, done) {
        const [kind, width] = network.split("-");
        this.open(kind, Number(width), false, commandsOf(schedule), done);
    }

    showExample(at) {
        const [, network, schedule, hint] = EXAMPLES[at];
        this.openAt(network, schedule, 0);
        this.hint = hint;
        this.play();
    }

    openLesson(at) {
        const {network, schedule, shows} = LESSON[at];
        this.openAt(network, schedule);
        this.lesson = at;
        this.showExtra(shows);
    }

    loadSchedule() {
        this.open(this.wiring.kind, this.wiring.width, this.carries, commandsOfText($("schedule").value));
    }

    // Does something, and shows what is so then, or why it could not be done.
    attempt(what) {
        this.fault = "";
        try {
            what();
        } catch (why) {
            this.stop();
            this.fault = why.message;
        }
        showAll(this);
        clearTimeout(this.later);
        if (this.isBehind()) this.later = setTimeout(() => this.attempt(() => this.catchUp()));
    }

    // ---- the address, which has the whole walk

    address() {
        const network = `${this.wiring.kind}-${this.wiring.width}${this.carries ? "-carry" : ""}`;
        return `#${network}/${this.done}/${this.commands.map(shortOf).join()}`;
    }

    // An address that was sent on may have each comma as %2C.
    read(address) {
        const [network, done, schedule] = address.slice(1).replaceAll(/%2c/gi, ",").split("/");
        const [kind, word, carry] = network.split("-"), width = Number(word);
        if (kind === "lesson" && LESSON[width - 1]) return this.openLesson(width - 1);
        if (!KINDS.includes(kind) || !(width in PLACES[kind])) throw Error("the address has no network of this page");
        this.open(kind, width, carry === "carry", commandsOf(schedule ?? ""), Number(done) || 0);
    }
}

// Which of those inside steps next.
const RULES = {
    random: here => here[random(here.length)],
    oldest: here => here[0],
    newest: here => here.at(-1),
    rounds: here => here.reduce((a, b) => b.since < a.since ? b : a),
    thread: here => here.reduce((a, b) => b.entry < a.entry || b.entry === a.entry && b.wire < a.wire ? b : a),
};

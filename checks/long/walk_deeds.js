"use strict";
// What checks/long/walk does on docs/walk.html in a browser, through its document, and what has to stand there then.
// walk_looks.js has how the page looks.
const tick = time => new Promise(done => setTimeout(done, time));
const element = id => document.getElementById(id);
const said = id => id === "answers" ? element(id).textContent : element(id).textContent.replace(/\s+/g, " ").trim();
const happen = (target, event) => target.dispatchEvent(event);
const click = selector => happen(document.querySelector(selector), new MouseEvent("click", {bubbles: true}));
const press = (key, target = document.body) => happen(target, new KeyboardEvent("keydown", {key, bubbles: true}));
const walkClient = (id, times) => { for (let i = 0; i < times; ++i) click(`[data-client="${id}"] .body`); };
const goToAddress = address => () => { location.hash = address; };
const openStop = at => click(`#lesson button:nth-of-type(${at})`);

function choose(id, value, event = "change") {
    element(id).value = value;
    happen(element(id), new Event(event));
}

function load(text) {
    choose("schedule", text);
    click("#load");
}

async function until(holds) {
    for (let i = 0; i < 400 && !holds(); ++i) await tick(50);
}

// Each thing that is done, with what has to stand on the page after it.
const DEEDS = [
    ["three wait", () => {}, "status", /^103 comes in by entry 3\. 3 came in, 3 are inside, and no name is given/],
    ["the welcome", () => {}, "task", /^Three clients wait\. Click 101, or press step:/],
    ["a client", () => walkClient(101, 1),
        "status", /^101 is the first at balancer 0: up, to wire 4\. 3 came in, 3 are inside, and no name/],
    ["its answer", () => {}, "answers", /\npass 101 balancer 0 number 0 wire 4\nend /],
    ["where it would go", () => {}, "would", /^101 would go by balancer 2, up to wire 8\.$/],
    ["two steps more", () => walkClient(101, 2), "answers", /pass 101 balancer 4 /],
    ["a client leaves", () => click('[data-client="101"] .finger'),
        "status", /^101 is the first to leave by exit 0: its name is 0\. 3 came in, 2 are inside, and one .* 3\.$/],
    ["no mark is left", () => {}, "would", /^$/],
    ["another", () => walkClient(102, 1), "status", /^102 is the second at balancer 0: down, to wire 5\. /],
    ["close is refused", () => press("c"), "status",
        /^Not yet: an epoch closes when nobody is inside, and 2 are \(RENAMER_LANES_MISSING, 11\)\. 3 came in/],
    ["key a", () => press("a"), "status", /^107 comes in by entry 3\. 7 came in, 6 are inside, and one name is given/],
    ["key m", () => press("m"), "status", /15 came in, 14 are inside/],
    ["key s", () => press("s"), "at", /^22 of 22$/],
    ["back", () => { press("ArrowLeft"); press("ArrowLeft"); }, "at", /^20 of 22$/],
    ["forth", () => press("ArrowRight"), "at", /^21 of 22$/],
    ["the slider", () => choose("moment", 3, "input"), "status", /^103 comes in by entry 3\. 3 came in, 3 are inside/],
    ["to the end", () => choose("moment", 22, "input"), "at", /^22 of 22$/],
    ["walk all", () => { choose("speed", 130); press("w"); }, "status",
        /Nobody is inside: the 15 clients have the names 0 to 14\. From exit 0 on, so many left by each: 4, 4, 4, 3\./],
    ["key c", () => press("c"), "status", /^Epoch 0 is closed: its 15 clients have the names 0 to 14\. .* 4, 3\. /],
    ["the next epoch", () => {}, "status", /The next epoch has begun\. Nobody has come in: click an entry\.$/],
    ["names", () => {}, "names", /name 0\d+name 1\d+name 2.*name 14$/],
    ["key e", () => press("e"), "status", /1 came in, 1 is inside/],
    ["an entry by Enter", () => press("Enter", document.querySelector('[data-entry="2"]')),
        "status", /^102 comes in by entry 2\. 2 came in/],
    ["no letters", () => { click("#letters"); press("e"); press("ArrowLeft"); }, "status", /1 came in, 1 is inside/],
    ["letters", () => { click("#letters"); press("e"); }, "status", /2 came in, 2 are inside/],
    ["key b", () => press("b"), "at", /^0 of 0$/],
    ["carry", () => click("#carry"), "same", /no --carry/],
    ["no carry", () => click("#carry"), "same", /same for it\.$/],
    ["a network", () => choose("kind", "periodic"), "answers", /^network periodic width 4/],
    ["a width", () => choose("width", 32), "answers", /^network periodic width 32 balancers 400 depth 25/],
    ["no entry", goToAddress("#tree-2/1/e5.1"), "status",
        /^Not done: there is no entry 1: a tree has only entry 0 \(RENAMER_NO_SUCH_ENTRY, 6\)\./],
    ["no wide entry", goToAddress("#bitonic-4/1/e5.18446744073709551615"), "status",
        /^Not done: there is no entry 18446744073709551615: this network has entries 0 to 3 \(RENAMER_NO_SUCH_ENTRY/],
    ["a name twice", goToAddress("#tree-2/4/e5.0,s5,s5,s5"), "status",
        /^Not done: client 5 has left already, with the name 0 \(RENAMER_NONE, 1\)\. /],
    ["twice in", goToAddress("#tree-2/2/e5.0,e5.0"),
        "status", /^Not done: client 5 is in this epoch already \(AlreadyIn\)/],
    ["a stranger", goToAddress("#tree-2/1/s5"), "status", /^Not done: client 5 has not come in \(Stranger\)\. /],
    ["no such network", goToAddress("#ring-2/0/"), "status", /^Not done: the address has no network/],
    ["no such record", goToAddress("#tree-2/0/e5.0,x"), "status", /^Not done: record 2 is none of a schedule: x\./],
    ["an address with %2C", goToAddress("#bitonic-4/2/e17.0%2Ce5.1"), "status", /^5 comes in by entry 1\. 2 came in/],
    ["a line that is none", () => load("op,client,wire\nenter,1\n"),
        "status", /^Not done: record 1: FieldCount: it has not three fields\. 5 comes in/],
    ["no header", () => load("enter,1,0\n"), "status", /^Not done: record 0: Header: the first line is not op,/],
    ["an empty line and quotes", () => load('op,client,wire\n\n"enter",1,"0"\n\n'),
        "status", /^1 comes in by entry 0\./],
    ["the limits", () => {}, "most", /^Here it has 20,000 records at most, and an epoch 4,096 clients/],
    ["a record too many", () => load(textOf(Array(20001).fill("step,1,"))),
        "status", /^Not done: a schedule has 20000 records at most here\. /],
    ["a client too many", () => load(textOf(Array.from({length: 4097}, (_, id) => `enter,${id},0`))),
        "status", /^Not done: an epoch has 4096 clients at most here\. 4095 comes in/],
    ["overtaking", () => choose("example", 0), "status", /Nobody is inside: the 3 clients .*5 leaves before 17/],
    ["order of time", () => choose("example", 1),
        "status", /Nobody is inside: .* Not in order of time: 103 came in after 102 had left/],
    ["mergers", () => choose("example", 2),
        "status", /Nobody is inside: the 10 clients .* 2, 2, 1, 1, 1, 1, 1, 1\./],
    ["a tree", () => choose("example", 3),
        "status", /Nobody is inside: the 15 clients .* came in after 108 had left/],
    ["stop 1", () => openStop(1), "task", /^Stop 1 of 6\. A balancer sends clients by turns up and down/],
    ["stop 1 is done", () => press("w"), "task", /^Stop 1 of 6\. By turns: as many left by exit 0/],
    ["stop 2", () => openStop(2), "task", /^Stop 2 of 6\. In a tree all come in by one entry/],
    ["stop 2 is done", () => press("w"), "task", /^Stop 2 of 6\. Exits 0, 1, 2 and 3 are taken by turns/],
    ["stop 3", () => openStop(3), "task", /^Stop 3 of 6\. 101 came in first\. Let 102 overtake it/],
    ["stop 3 is done", () => walkClient(102, 4), "task", /^Stop 3 of 6\. 102 has left, and 101 has not/],
    ["stop 3 is left", () => walkClient(101, 4),
        "task", /^Stop 3 of 6\. 102 left before 101, with the name 0, and 101 with the name 1: no client waits/],
    ["stop 3 is missed", () => { openStop(3); choose("rule", "oldest"); press("w"); },
        "task", /^Stop 3 of 6\. 101 has left, and 102 did not overtake it\. Press back 5 times: then 101 is inside/],
    ["nearly back", () => { for (let i = 0; i < 4; ++i) press("ArrowLeft"); }, "task", / Press back once: /],
    ["back to it", () => press("ArrowLeft"), "task", /^Stop 3 of 6\. 101 came in first\. Let 102 overtake it/],
    ["it can be done then", () => { choose("rule", "random"); walkClient(102, 4); },
        "task", /^Stop 3 of 6\. 102 has left, and 101 has not/],
    ["stop 4", () => openStop(4), "task", /^Stop 4 of 6\. Try to leave a gap/],
    ["a gap for now", () => { walkClient(101, 3); walkClient(102, 4); },
        "status", /its name is 1\. .* The name 0 is still to be given: to those inside, or to who comes in\.$/],
    ["no gap", () => press("w"), "task", /^Stop 4 of 6\. No gap, and none can be left/],
    ["no gap again", () => { press("ArrowLeft"); press("w"); }, "task", /^Stop 4 of 6\. No gap, .* \(2 tries\.\)$/],
    ["stop 5 by its address", goToAddress("#lesson-5"), "task", /^Stop 5 of 6\. A bitonic network of width 8 is made/],
    ["stop 5 is done", () => press("w"), "task", /^Stop 5 of 6\. To the right of each box the bars are a staircase/],
];

// What is shown in the last stop and after it. One client comes by each entry of bitonic 8, which has 8 entries, 24
// balancers and 8 exits: so two pass each balancer, and each adds to an entry, six balancers and an exit.
const LOADS = [
    ["stop 6", () => openStop(6), "task", /^Stop 6 of 6\. One counter is one word of memory: all clients add to it,/],
    ["its bars", () => {}, "loads",
        /^One counter: 8 of 8 clients add to its only word\.This network: 1 of 8 add to the busiest of its 40 words, /],
    ["stop 6 is done", () => press("w"), "task",
        /^Stop 6 of 6\. To one counter's word 8 of 8 clients added, to the busiest .* 2 of 8\. .* added to 8 words\. /],
    ["its bars then", () => {}, "loads", /^One counter: 8 of 8 clients .* network: 2 of 8 .*, that of balancer 0\.$/],
    ["one more", () => press("e"), "loads", /^One counter: 9 of 9 clients .* network: 2 of 9 /],
    ["a tree", () => { choose("kind", "tree"); click("#loads-seen"); press("m"); }, "loads",
        /^One counter: 8 of 8 clients .* network: 8 of 8 add to the busiest of its 16 words, that of entry 0\.$/],
];

async function wrongByDeed([name, does, id, wanted]) {
    does();
    await until(() => wanted.test(said(id)));
    return wanted.test(said(id)) ? [] : [`${name}: ${id} says: ${said(id).slice(-300)}`];
}

const each = deeds => deeds.map(deed => () => wrongByDeed(deed));

// Asks functions one after another what is wrong, and sends it to the window that has this one in a frame.
async function tell(asked) {
    const wrong = [];
    addEventListener("error", it => wrong.push(it.message));
    addEventListener("unhandledrejection", it => wrong.push(String(it.reason)));
    try {
        await until(() => said("version") || said("status"));
        for (const ask of asked) wrong.push(...await ask());
    } catch (why) {
        wrong.push(String(why.stack));
    }
    parent.postMessage(JSON.stringify(wrong), "*");
}

// Without WebAssembly there is a sentence.
async function wrongWithout() {
    await until(() => said("status").includes("needs WebAssembly"));
    return said("status").includes("needs WebAssembly") ? [] : [`without WebAssembly it says ${said("status")}`];
}

// Whether the bars behind each part are a staircase, at the end of the lesson's last stop.
function wrongStairs() {
    const widths = [...document.querySelectorAll("#parts")].flatMap(group => {
        const parts = [];
        for (const it of group.children) {
            if (it.classList.contains("part")) parts.push([]);
            if (it.classList.contains("stair")) parts.at(-1).push(Number(it.getAttribute("width")));
        }
        return parts;
    });
    const isStair = it => it.every((width, at) => at === 0 || width <= it[at - 1]) && Math.max(...it) > 0;
    const lengths = widths.map(it => it.length).join();
    return lengths === "4,4,8" && widths.every(isStair) ? [] : [`the stairs are ${JSON.stringify(widths)}`];
}

// Whether the loads that the page shows are those of the steps that stand in its answers.
async function wrongLoads() {
    choose("kind", "bitonic");
    choose("width", 8);
    choose("count", 40);
    press("m");
    press("w");
    await until(() => /Nobody is inside/.test(said("status")));
    const counts = {}, words = /^(?:enter|pass|leave) \d+ (\w+ \d+)/gm;
    for (const [, word] of said("answers").matchAll(words)) counts[word] = (counts[word] ?? 0) + 1;
    const most = Math.max(...Object.values(counts)), boxes = [...document.querySelectorAll(".box")];
    const shareOf = it => parseFloat(it.style.getPropertyValue("--share"));
    const isRight = (it, at) => shareOf(it) === 100 * (counts[`balancer ${at}`] ?? 0) / 40;
    const wrong = said("loads").includes(`network: ${most} of 40 add`) ? [] : [`not ${most}: ${said("loads")}`];
    return boxes.length === 24 && boxes.every(isRight) ? wrong : [...wrong, "a balancer has the colour of another"];
}

// What a stop shows beside its network ends with the stop.
function wrongExtras() {
    const seen = () => ["parts", "loads"].filter(id => getComputedStyle(element(id)).display !== "none").join();
    return [[5, "parts"], [6, "loads"]].flatMap(([stop, wanted]) => {
        openStop(stop);
        const inside = seen();
        choose("kind", "periodic");
        const behind = seen();
        return inside === wanted && !behind ? [] : [`stop ${stop} shows ${inside}, and ${behind} is left after it`];
    });
}

// Walk all hurries: 20 steps come at the speed that was chosen, and then each sooner than the one before, or as soon.
// The page waits too before it writes its address.
async function wrongHurry() {
    const later = window.setTimeout, waits = [];
    openStop(5);
    choose("speed", 450);
    window.setTimeout = (what, time) => {
        if (time !== undefined && time !== IDLE) waits.push(time);
        return later(what);
    };
    press("w");
    while (!/Nobody is inside/.test(said("status"))) await new Promise(done => later(done, 50));
    window.setTimeout = later;
    choose("speed", 130);
    const isRight = waits.length === 60 && waits.slice(0, 20).every(it => it === 450) && waits[20] < 450
        && waits.slice(20).every((it, at) => at === 0 || it <= waits[19 + at]) && waits.at(-1) <= 50;
    return isRight ? [] : [`walk all waits ${waits}`];
}

// Whether a schedule that is written into the page has these answers, and its address has it again.
async function wrongByHand(schedule, answers) {
    choose("kind", "bitonic");
    choose("width", 8);
    const changed = address => until(() => location.hash !== address), before = location.hash;
    load(["op,client,wire", ...schedule].join("\n"));
    const wrong = `${said("answers")}\n` === answers ? [] : [`a schedule by hand: ${said("answers")}`];
    // The page writes its address a little later.
    await changed(before);
    const address = location.hash;
    press("b");
    await changed(address);
    location.hash = address;
    await until(() => `${said("answers")}\n` === answers);
    return `${said("answers")}\n` === answers ? wrong : [...wrong, `an address: ${said("answers")}`];
}

// Of many on one wire the first is seen, in front, and the number of the others.
async function wrongPile() {
    choose("kind", "bitonic");
    choose("width", 4);
    for (let i = 0; i < 62; ++i) press("Enter", document.querySelector('[data-entry="0"]'));
    const first = document.querySelector('[data-client="101"] .body');
    const onTop = () => document.elementFromPoint(...centre(first))?.closest(".token")?.dataset.client;
    // Until it has walked there.
    await until(() => onTop() === "101");
    const pill = document.querySelector(".pill")?.textContent, seen = document.querySelectorAll(".token").length;
    const top = onTop();
    const isRight = pill === "+61" && seen === 1 && top === "101";
    const wrong = isRight ? [] : [`of 62 on a wire: ${pill}, ${seen} seen, on top ${top}`];
    const [body, words] = document.querySelector(".pill").children, {width} = boxOf(body);
    return boxOf(words).width < width ? wrong : [...wrong, `${pill} is wider than what it stands on`];
}

function centre(it) {
    const {left, top, width, height} = it.getBoundingClientRect();
    return [left + width / 2, top + height / 2];
}

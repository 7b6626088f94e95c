"use strict";
// What the page listens to: buttons, lists, the network, keys and the address.

// What each button does. Each but a repeated one stops what repeats.
const BUTTONS = {
    one: page => page.letIn(random(page.wiring.entries)),
    each: page => page.letInEach(),
    many: page => page.letInMany(),
    step: page => page.stepByRule(),
    walk: page => page.repeat("walk", () => page.stepByRule(), true),
    turn: page => page.act("turn,,"),
    clear: page => page.open(page.wiring.kind, page.wiring.width, page.carries, []),
    back: page => page.goTo(page.done - 1),
    forth: page => page.forth(),
    play: page => page.play(),
    load: page => page.loadSchedule(),
};

// Does something that a reader asks for, unless a long walk is being done again.
function does(page, what) {
    if (page.isBehind()) return;
    page.stop();
    page.attempt(what);
}

function listen(page) {
    const on = (id, event, what) => $(id).addEventListener(event, () => does(page, what));
    for (const [id, act] of Object.entries(BUTTONS)) {
        label($(id), $(id).textContent);
        $(id).addEventListener("click", () => {
            const wasRunning = page.running === id;
            does(page, () => { if (!wasRunning) act(page); });
        });
    }
    const open = (commands, done) =>
        page.open($("kind").value, Number($("width").value), $("carry").checked, commands, done);
    on("kind", "change", () => open([]));
    on("width", "change", () => open([]));
    on("carry", "change", () => open(page.commands, page.done));
    on("moment", "input", () => page.goTo(Number($("moment").value)));
    for (const id of EXTRAS) on(id, "change", () => {});
    on("fit", "change", () => {
        $("frame").classList.toggle("whole", $("fit").checked);
        page.draw();
    });
    EXAMPLES.forEach(([title], at) => $("example").add(new Option(title, at)));
    on("example", "change", () => {
        const at = $("example").value;
        $("example").value = "";
        if (at) page.showExample(Number(at));
    });
    $("schedule").addEventListener("focus", () => { $("schedule").value ||= textOf(page.commands); });
    listenToLesson(page);
    listenToSaving(page);
    listenToNetwork(page);
    listenToFrame(page);
    listenToKeys(page);
}

function listenToLesson(page) {
    LESSON.forEach(({title}, at) => {
        const button = document.createElement("button");
        button.textContent = `${at + 1} ${title}`;
        button.addEventListener("click", () => does(page, () => page.openLesson(at)));
        $("lesson").append(button);
    });
}

function listenToSaving(page) {
    $("link").addEventListener("click", async () => { $("saved").textContent = await copyLink(page); });
    $("save").addEventListener("click", () => { $("saved").textContent = savePicture(page); });
}

function listenToNetwork(page) {
    const press = event => {
        const entry = event.target.closest(".entry"), client = event.target.closest(".token.inside");
        if (!entry && !client) return;
        does(page, () => entry ? page.letIn(entry.dataset.entry) : page.act(`step,${client.dataset.client},`));
    };
    const mark = event => {
        page.marked = event.type === "mouseleave" ? null : event.target.closest(".token")?.dataset.client;
        showMark(page);
    };
    $("network").addEventListener("click", press);
    $("network").addEventListener("keydown", event => {
        if (!["Enter", " "].includes(event.key)) return;
        event.preventDefault();
        press(event);
    });
    for (const event of ["mouseover", "mouseleave", "focusin", "click"]) $("network").addEventListener(event, mark);
}

// Entries and exits stay in sight. A narrow window has another layout.
function listenToFrame(page) {
    const stick = () => page.drawing.stick($("frame"));
    $("frame").addEventListener("scroll", stick);
    window.addEventListener("resize", () => {
        stick();
        showWider();
    });
    page.narrow.addEventListener("change", () => {
        page.draw();
        page.attempt(() => {});
    });
}

// A list from which something was chosen by a click leaves the keys to the buttons.
function listenToKeys(page) {
    let last = "";
    for (const event of ["pointerdown", "keydown"]) document.addEventListener(event, () => { last = event; });
    document.addEventListener("change", ({target}) => { if (last === "pointerdown") target.blur(); });
    document.addEventListener("keydown", event => pressKey(event));
    $("letters").addEventListener("change", () => document.body.classList.toggle("no-letters", !$("letters").checked));
}

// A key presses its button, unless words are being written, a list is open, or letters are no keys.
function pressKey(event) {
    if (event.ctrlKey || event.metaKey || event.altKey || event.target.closest("input, select, textarea, pre")) return;
    if (event.key.length === 1 && !$("letters").checked) return;
    const button = document.querySelector(`button[data-key="${CSS.escape(event.key)}"]`);
    if (!button || button.disabled) return;
    event.preventDefault();
    button.click();
}

function start(library) {
    const page = new Page(library), version = library.exports.renamer_version();
    $("version").textContent = [version / 1e6, version / 1e3 % 1e3, version % 1e3].map(Math.floor).join(".");
    const [records, clients] = [MOST_COMMANDS, QUOTA].map(most => most.toLocaleString("en"));
    $("most").textContent = `Here it has ${records} records at most, and an epoch ${clients} clients, a floor's quota.`;
    listen(page);
    // Other addresses are those of headings.
    const isWalk = address => /^#[a-z]+-/.test(address);
    page.attempt(() => { if (isWalk(location.hash)) page.read(location.hash); });
    window.addEventListener("hashchange", ({newURL}) => {
        const {hash} = new URL(newURL);
        if (!isWalk(hash) || hash === page.address()) return;
        page.stop();
        page.attempt(() => page.read(hash));
    });
}

WebAssembly.instantiate(Uint8Array.from(atob(MODULE), letter => letter.charCodeAt(0)))
    .then(({instance}) => start(new Library(instance.exports)))
    .catch(why => {
        $("status").className = "fault";
        $("status").textContent = `The library needs WebAssembly, which this browser does not run: ${why.message}`;
    });

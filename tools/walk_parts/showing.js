"use strict";
// What the page says beside the network.
// The address is written when nothing has happened for so many milliseconds: browsers leave it as it was if it changes
// too often.
const IDLE = 400;
// So many answers are one piece of the text, and only pieces in sight are laid out.
const PIECE = 100;

function showAll(page) {
    $("frame").setAttribute("aria-busy", page.isBehind());
    if (page.isBehind()) return showProgress(page);
    page.drawing.show(page.floor);
    showMark(page);
    showStatus(page);
    showNames(page);
    showAnswers(page);
    showControls(page);
    showTask(page);
    showLoads(page);
    showWider();
    follow(page.last);
    page.drawing.stick($("frame"));
    writeWalk(page);
}

// A long walk is done again in slices.
function showProgress({done, until}) {
    $("status").className = "";
    showWords(["", `The page walks again: ${done} of ${until} records are done.`, "", ""]);
}

function showControls({floor, commands, done, running}) {
    const {kind, width} = floor.wiring, limit = floor.carries ? ", up to the first turn: it has no --carry" : "";
    const command = `renamer replay --network ${kind} --width ${width}`;
    $("same").innerHTML = `<code>${command}</code> prints the same for it${limit}.`;
    Object.assign($("moment"), {max: commands.length, value: done});
    $("at").textContent = `${done} of ${commands.length}`;
    $("kind").value = kind;
    $("width").value = width;
    $("carry").checked = floor.carries;
    $("network").classList.toggle("with-parts", $("parts-seen").checked);
    for (const id of ["step", "walk"]) $(id).disabled = !floor.inside;
    $("back").disabled = !done;
    $("forth").disabled = done === commands.length;
    $("play").disabled = !commands.length;
    label($("walk"), running === "walk" ? "pause" : "walk all");
    label($("play"), running === "play" ? "pause" : "play");
}

// Labels a button, with its key, which is no part of its name.
function label(button, words) {
    const {key} = button.dataset, shown = {ArrowLeft: "←", ArrowRight: "→"}[key] ?? key;
    const html = `${words} <kbd aria-hidden="true">${shown}</kbd>`;
    if (button.innerHTML !== html) button.innerHTML = html;
    button.setAttribute("aria-keyshortcuts", key);
}

// Keeps the last client that moved in sight, where the network is larger than its frame.
function follow(client) {
    if (!client) return;
    const frame = $("frame"), box = $("network").viewBox.baseVal, scale = $("network").clientWidth / box.width;
    const {clientWidth: width, clientHeight: height} = frame;
    const x = client.place[0] * scale - width / 2, y = (client.place[1] - box.y) * scale - height / 2;
    const away = Math.max(Math.abs(x - frame.scrollLeft) / width, Math.abs(y - frame.scrollTop) / height);
    if (away > 1 / 3) frame.scrollTo(x, y);
}

// Says below the picture that it scrolls, if it is wider than its frame.
function showWider() { $("wider").hidden = $("frame").scrollWidth <= $("frame").clientWidth; }

// Marks where the client would go at which the reader points.
function showMark({drawing, floor, marked}) {
    const it = floor.clients.get(marked);
    drawing.mark(it, floor);
    $("would").textContent = wouldWords(it, floor);
}

function showStatus(page) {
    const {floor, fault, hint, lesson} = page, isQuiet = floor.clients.size > 0 && !floor.inside;
    const refused = fault ? `Not done: ${fault}.` : floor.last?.what === "refused" ? refusedWords(floor) : "";
    const isGapTried = lesson !== null && LESSON[lesson].isGapTried;
    $("status").className = isQuiet ? "quiet" : "";
    showWords([refused, stepWords(floor), stateWords(floor),
        [turnedWords(floor), isGapTried ? missingWords(floor) : "", hint].filter(Boolean).join(" ")]);
}

// Only words that are others than before are written, so that a screen reader says each once.
function showWords(texts) {
    texts.forEach((text, at) => {
        const part = $("status").children[at];
        if (part.textContent !== text) part.textContent = text;
    });
}

function showTask(page) {
    const words = taskWords(page), isOver = isDone(page);
    if ($("task").textContent !== words) $("task").textContent = words;
    $("task").className = isOver ? "done" : "";
    [...$("lesson").querySelectorAll("button")].forEach((button, at) => {
        button.setAttribute("aria-current", at === page.lesson ? "step" : "false");
        button.classList.toggle("next", isOver && at === page.lesson + 1);
    });
}

// The list of names. Of an epoch that goes on only what is new is written.
function showNames({floor}) {
    const list = $("names"), isOpen = floor.clients.size > 0 || !floor.closed;
    const key = isOpen ? floor.clients : floor.closed, holders = isOpen ? floor.holders : floor.closed.holders;
    const length = isOpen ? Math.max(floor.clients.size, holders.length) : holders.length;
    if (list.shown !== key) Object.assign(list, {shown: key, count: 0, textContent: length ? "" : "Nobody has one."});
    else if (length && !list.children.length) list.textContent = "";
    const there = list.children.length, cells = [];
    for (let name = there; name < length; ++name) cells.push(`<div><b></b>name ${name}</div>`);
    list.insertAdjacentHTML("beforeend", cells.join(""));
    const given = isOpen ? floor.left.map(it => it.name) : holders.map((_, name) => name);
    const fresh = given.slice(list.count);
    for (const name of fresh) showHolder(list.children[name].firstChild, holders[name]);
    list.count += fresh.length;
}

function showHolder(cell, id) {
    const [fill, letters] = colourOf(id);
    cell.textContent = id;
    cell.setAttribute("class", "held");
    Object.assign(cell.style, {background: fill, color: letters});
}

// The answers, in pieces. A piece that is full is not touched again.
function showAnswers({floor, answers}) {
    const list = $("answers"), {length} = answers;
    if (list.shown !== floor) Object.assign(list, {shown: floor, textContent: ""});
    const first = Math.max(0, list.children.length - 2);
    while (list.children.length > first) list.lastChild.remove();
    for (let at = PIECE * first; at < length; at += PIECE) {
        list.append(Object.assign(document.createElement("div"), {
            textContent: answers.slice(at, at + PIECE).map(line => `${line}\n`).join(""),
        }));
    }
    list.append(Object.assign(document.createElement("div"), {textContent: floor.end()}));
    list.scrollTop = list.scrollHeight;
}

// The schedule and the address have the whole walk; the schedule of a long one is written when it is clicked.
function writeWalk(page) {
    clearTimeout(page.idle);
    page.idle = setTimeout(() => history.replaceState(null, "", page.address()), IDLE);
    if (page.fault) return;
    $("schedule").placeholder = `Click here to see the ${page.commands.length} records.`;
    $("schedule").value = page.commands.length <= SHORT_WALK ? textOf(page.commands) : "";
}

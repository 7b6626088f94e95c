"use strict";
// How docs/walk.html looks in a browser: checks/long/walk asks this after walk_deeds.js, whose helpers it takes.

const isSeen = it => it.checkVisibility();
const boxOf = it => it.getBoundingClientRect();

// The picture stands first, below it four buttons, and nothing is wider than the window.
function wrongBegin(least) {
    const frame = boxOf(element("frame")), wrong = [], width = document.documentElement.clientWidth;
    const buttons = [...document.querySelectorAll("button, summary, select, input")].filter(isSeen);
    const four = buttons.filter(it => it.closest("#four"));
    const isFirst = frame.top < 200 && buttons.every(it => boxOf(it).top >= frame.bottom);
    if (!isFirst || boxOf(element("four")).top > frame.bottom + 20) wrong.push("the picture is not first");
    if (four.length !== 4 || buttons.length !== 4 + 6 + 1 + 1) wrong.push(`${buttons.length} buttons are seen`);
    if (document.documentElement.scrollWidth > width) wrong.push("the page is wider than its window");
    if (element("frame").scrollWidth > element("frame").clientWidth) wrong.push("bitonic 4 does not fit");
    element("more").open = true;
    const small = [...document.querySelectorAll("button, select, summary, [type=number], .entry .finger")]
        .filter(it => isSeen(it) && Math.min(boxOf(it).height, boxOf(it).width) < least);
    if (small.length) wrong.push(`below ${least} pixels: ${small.map(it => it.id || it.textContent).join(", ")}`);
    if (document.documentElement.scrollWidth > width) wrong.push("with more, the page is wider than its window");
    element("more").open = false;
    return wrong;
}

// A picture that is wider than its frame says that it scrolls, and no other does.
function wrongScroll(scrolls) {
    const frame = element("frame"), saysSo = () => isSeen(element("wider"));
    return [[1, false], [5, scrolls], [6, scrolls]].flatMap(([stop, wanted]) => {
        openStop(stop);
        const isRight = frame.scrollWidth > frame.clientWidth === wanted && saysSo() === wanted;
        return isRight ? [] : [`stop ${stop} ${saysSo() ? "says" : "does not say"} that it scrolls`];
    });
}

// Who has which name stands in the window, at the begin and at the end of each stop.
function wrongFold() {
    const isIn = () => window.scrollY === 0 && boxOf(element("names")).bottom <= document.documentElement.clientHeight;
    const stops = document.querySelectorAll("#lesson button").length;
    const wrong = isIn() ? [] : ["at first no names are in sight"];
    for (let stop = 1; stop <= stops; ++stop) {
        openStop(stop);
        const isInAtFirst = isIn();
        while (!element("step").disabled) press("s");
        if (!isInAtFirst || !isIn()) wrong.push(`in stop ${stop} no names are in sight`);
    }
    return stops === 6 ? wrong : [...wrong, `${stops} stops`];
}

// Entries and exits stay in sight, however far the network is scrolled.
async function wrongEnds(kind, width) {
    choose("kind", kind);
    choose("width", width);
    const frame = element("frame"), wrong = [];
    for (const share of [0, 0.5, 1]) {
        frame.scrollLeft = share * (frame.scrollWidth - frame.clientWidth);
        const left = boxOf(frame).left + frame.clientLeft, right = left + frame.clientWidth;
        const isIn = it => it.left >= left - 0.5 && it.right <= right + 0.5;
        const areIn = () => [...document.querySelectorAll(".entry .body, .exit")].map(boxOf).every(isIn);
        await until(areIn);
        if (!areIn()) wrong.push(`of ${kind} ${width} the ends are not in sight at ${share}`);
    }
    return wrong;
}

function luminance(colour) {
    const parts = colour.match(/[\d.]+/g).slice(0, 3).map(it => it / 255);
    const [red, green, blue] = parts.map(it => it <= 0.04045 ? it / 12.92 : ((it + 0.055) / 1.055) ** 2.4);
    return 0.2126 * red + 0.7152 * green + 0.0722 * blue;
}

// Words have a contrast of 4.5 with what they stand on, in dark windows too.
function wrongColours(isDark) {
    const style = getComputedStyle(document.documentElement), probe = document.createElement("p");
    document.body.append(probe);
    const value = name => {
        probe.style.color = style.getPropertyValue(name);
        return luminance(getComputedStyle(probe).color);
    };
    const contrast = (a, b) => (Math.max(a, b) + 0.05) / (Math.min(a, b) + 0.05), wrong = [];
    for (const ground of ["--paper", "--ground", "--part", "--entry"]) {
        for (const ink of ["--ink", "--dim", "--blue", "--count", "--fault", "--quiet", "--faint"]) {
            const found = contrast(value(ink), value(ground));
            if (found < 4.5) wrong.push(`${ink} on ${ground} has a contrast of ${found.toFixed(2)}`);
        }
    }
    const onBar = contrast(value("--ink"), value("--hot"));
    if (onBar < 4.5) wrong.push(`--ink on --hot has a contrast of ${onBar.toFixed(2)}`);
    if (value("--paper") > 0.1 === isDark) wrong.push(`the page is not ${isDark ? "dark" : "light"}`);
    probe.remove();
    return wrong;
}

// On paper there are no buttons, and the network is whole.
function wrongPrint(stop) {
    openStop(stop);
    const seen = ["four", "controls", "load", "would", "wider"].filter(id => isSeen(element(id)));
    const frame = element("frame"), wrong = seen.map(id => `${id} is printed`);
    if (!isSeen(element("network")) || frame.scrollWidth > frame.clientWidth + 2) wrong.push("the network is cut");
    if (element("answers").scrollWidth > element("answers").clientWidth) wrong.push("the answers are cut");
    if (luminance(getComputedStyle(document.body).backgroundColor) < 0.9) wrong.push("paper is not white");
    return wrong;
}

// The picture that is saved is an SVG by itself, and the link that is copied has the whole walk.
async function wrongSaved() {
    const picture = new DOMParser().parseFromString(pictureText(), "image/svg+xml"), wrong = [];
    const isWhole = picture.querySelectorAll(".wire").length === document.querySelectorAll(".wire").length;
    if (picture.querySelector("parsererror") || !isWhole || !picture.querySelector("style")) wrong.push("no picture");
    let copied = "";
    navigator.clipboard.writeText = async words => { copied = words; };
    click("#link");
    await until(() => copied === location.href);
    if (copied !== location.href) wrong.push(`copied is ${copied}`);
    await tick(50);
    click("#save");
    if (!said("saved").endsWith("bitonic_4.svg.")) wrong.push(`saved: ${said("saved")}`);
    return wrong;
}

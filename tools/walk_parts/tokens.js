"use strict";
// Draws clients as tokens, on wires or behind the exits: those for which there is room, the first of each wire in front
// of the others, and for the rest a number.
// The colours of Okabe and Ito, which also those tell apart who see few colours, and the colour of letters on each.
const COLOURS = [
    ["#0072b2", "white"], ["#e69f00", "black"], ["#000000", "white"], ["#56b4e9", "black"],
    ["#d55e00", "black"], ["#009e73", "black"], ["#f0e442", "black"], ["#cc79a7", "black"],
];
// Longer labels are cut to their end.
const LABEL = 4;
// How wide a letter is in the number of those who have no room.
const PILL_LETTER = 0.55;

const colourOf = id => COLOURS[Number(BigInt(id) % BigInt(COLOURS.length))];
const labelOf = id => id.length > LABEL ? `…${id.slice(1 - LABEL)}` : id;

// The members of a list by what they have in common.
function grouped(list, keyOf) {
    const groups = new Map();
    for (const it of list) {
        const key = keyOf(it);
        if (!groups.has(key)) groups.set(key, []);
        groups.get(key).push(it);
    }
    return groups;
}

class Tokens {
    constructor(group, wiring, places) {
        Object.assign(this, {group, wiring, places, tokens: new Map(), pills: new Map()});
    }

    // Tokens walk to their new places.
    show(floor) {
        const inside = grouped([...floor.clients.values()].filter(it => it.wire !== null), it => it.wire);
        const outside = grouped(floor.left, it => it.exit);
        this.wanted = [];
        this.wantedPills = new Map();
        for (const [wire, here] of inside) this.standOnWire(wire, here.sort((a, b) => a.since - b.since));
        for (const [exit, here] of outside) this.standBehind(exit, here);
        this.drop();
        this.wanted.filter(({it}) => !this.tokens.has(it.id)).forEach(it => this.make(it));
        // So that they are seen to walk from their entries.
        this.group.getBoundingClientRect();
        this.wanted.forEach(it => this.put(it));
        this.showPills();
    }

    // The first stands at the end of the gap, and others behind it. Who has no room stands below the number of such.
    standOnWire(wire, here) {
        const {places} = this, {tokenWidth} = places, [begin, end] = places.gap(wire), y = places.wireY(wire);
        const room = end - begin, isRoomForAll = here.length * tokenWidth <= room + 1e-6;
        const pill = this.pillWidth(`+${here.length}`);
        const seen = isRoomForAll ? here.length : Math.max(1, Math.floor((room - pill) / tokenWidth));
        const x = at => end - tokenWidth * (at + 0.5), pillX = end - tokenWidth * seen - pill / 2;
        here.slice(0, seen).forEach((it, at) => this.want(it, x(at), y, ""));
        if (!isRoomForAll) this.wantRest(`wire ${wire}`, here.slice(seen), pillX, y);
    }

    // The last ones are seen, the first of them next to the exit, or to the number of those who left before.
    standBehind(exit, here) {
        const {places} = this, y = places.wireY(this.wiring.exitWires[exit]);
        const isRoomForAll = here.length <= places.namesSeen, seen = isRoomForAll ? here.length : places.namesSeen - 1;
        const x = at => places.afterExits + places.nameWidth * (at + 0.5);
        here.slice(-seen).forEach((it, at) => this.want(it, x(at + !isRoomForAll), y, `name ${it.name}`));
        if (!isRoomForAll) this.wantRest(`exit ${exit}`, here.slice(0, -seen), x(0), y);
    }

    want(it, x, y, note, isSeen = true) {
        it.place = [x, y];
        this.wanted.push({it, x, y, note, isSeen});
    }

    // A number for those who have no room. A token that is drawn already walks below it.
    wantRest(key, rest, x, y) {
        this.wantedPills.set(key, {x, y, words: `+${rest.length}`});
        for (const it of rest) {
            it.place = [x, y];
            if (this.tokens.get(it.id)?.isSeen) this.want(it, x, y, "", false);
        }
    }

    // Takes away tokens that are of another walk, or hidden.
    drop() {
        const ids = new Set(this.wanted.map(({it}) => it.id));
        for (const [id, {element}] of this.tokens) {
            if (ids.has(id)) continue;
            element.remove();
            this.tokens.delete(id);
        }
    }

    // A token begins at its entry if its client has just come in, else where it stands.
    make({it: {id, entry, wire, came, since}, x, y}) {
        const {font, left, box: height, row, finger} = this.places, [fill, letters] = colourOf(id);
        const element = document.createElementNS(SVG, "g"), label = labelOf(id), width = this.places.boxWidth(label);
        const isNew = wire === entry && came === since;
        element.dataset.client = id;
        element.style.transform = `translate(${isNew ? left : x}px, ${y}px)`;
        element.innerHTML = `<rect class="finger" ${box(width + font, finger ? row : Math.min(row, 3 * font), 0)}/>`
            + `<rect class="body" ${box(width, height, 0.5)} fill="${fill}"/>`
            + text(0, 0, label, `class="id" style="fill: ${letters}"`) + text(0, 1.25 * font, "", 'class="note"');
        this.group.prepend(element);
        this.tokens.set(id, {element});
    }

    // Only what has changed is set: a large walk has thousands of tokens.
    put({it, x, y, note, isSeen}) {
        const token = this.tokens.get(it.id), isInside = it.wire !== null, key = [x, y, note, isSeen, it.wire].join();
        if (token.key === key) return;
        const {element} = token;
        Object.assign(token, {key, isSeen});
        element.setAttribute("class", `token${isInside ? " inside" : ""}${isSeen ? "" : " under"}`);
        element.style.transform = `translate(${x}px, ${y}px)`;
        element.lastChild.textContent = note;
        if (isInside && isSeen) this.makeButton(element, `take client ${it.id} on from wire ${it.wire}`);
        else this.makePicture(element, `client ${it.id}${note ? `, ${note}` : ""}`);
    }

    makeButton(element, label) {
        element.setAttribute("role", "button");
        element.setAttribute("tabindex", 0);
        element.setAttribute("aria-label", label);
    }

    // Who has left is no button any more. The focus goes on to the next client inside, or to an entry.
    makePicture(element, label) {
        const hadFocus = document.activeElement === element;
        element.setAttribute("role", "img");
        element.removeAttribute("tabindex");
        element.setAttribute("aria-label", label);
        if (hadFocus) (this.group.querySelector('[role="button"]') ?? document.querySelector(".entry")).focus();
    }

    showPills() {
        for (const [key, pill] of this.pills) {
            if (this.wantedPills.has(key)) continue;
            pill.remove();
            this.pills.delete(key);
        }
        for (const [key, {x, y, words}] of this.wantedPills) {
            if (!this.pills.has(key)) this.pills.set(key, this.makePill());
            const pill = this.pills.get(key);
            pill.setAttribute("transform", `translate(${x} ${y})`);
            if (pill.textContent !== words) this.write(pill, words);
        }
    }

    // How wide a number of clients is, with what stands free beside it.
    pillWidth(words) { return (PILL_LETTER * words.length + 1) * this.places.font; }

    write(pill, words) {
        const {font, box: height} = this.places;
        pill.innerHTML = `<rect ${box(this.pillWidth(words) - 0.3 * font, height, 0.5)}/>${text(0, 0, words)}`;
    }

    makePill() {
        const pill = document.createElementNS(SVG, "g");
        pill.setAttribute("class", "pill");
        this.group.append(pill);
        return pill;
    }
}

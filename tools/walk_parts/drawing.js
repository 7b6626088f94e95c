"use strict";
// Draws a network on its places: wires, balancers, entries, exits and the parts of which it is made.
const SVG = "http://www.w3.org/2000/svg";

const text = (x, y, words, more = "") => `<text x="${x}" y="${y}" dy=".35em" ${more}>${words}</text>`;
const box = (width, height, corner) =>
    `x="${-width / 2}" y="${-height / 2}" width="${width}" height="${height}" rx="${corner * height}"`;

class Drawing {
    constructor(svg, wiring, places) {
        Object.assign(this, {svg, wiring, places, parts: partsOf(wiring)});
        // Without the line above, in which a picture has its heading.
        svg.setAttribute("viewBox", `0 ${places.line} ${places.width} ${places.bottom - places.line}`);
        svg.style.setProperty("--wide", places.width);
        svg.style.setProperty("--font", places.font);
        svg.innerHTML = [
            `<g id="parts">${this.boxes().join("")}</g>`, ...this.wires(), ...this.balancers(), '<g id="tokens"></g>',
            ...this.countsOfWires(), this.ends("entries", 0, places.left, this.entries()),
            this.ends("exits", places.right, places.afterExits - places.right, this.exits()),
        ].join("");
        this.dots = [...svg.querySelectorAll(".dot")];
        this.lines = [...svg.querySelectorAll(".wire")];
        this.counts = [...svg.querySelectorAll(".count")];
        this.stairs = [...svg.querySelectorAll(".stair")];
        // Of words, in the order that loadsOf has.
        this.words = [".entry .body", ".box", ".exit-box"].flatMap(it => [...svg.querySelectorAll(it)]);
        this.tokens = new Tokens(svg.querySelector("#tokens"), wiring, places);
    }

    wires() {
        const {places, wiring} = this, half = places.isTree ? places.boxWidth(wiring.outputs.length - 1) / 2 : 0;
        return wiring.ends.map((_, wire) => {
            const begin = places.wireBegin(wire), y = places.wireY(wire), x = begin + half + places.away;
            return `<path class="wire" d="M${begin} ${y}H${places.wireEnd(wire)}"/>`
                + text(x, y - places.numberAway, wire, 'class="number"');
        });
    }

    // How many came to each wire stands in front of tokens, and beside the balancer's box.
    countsOfWires() {
        const {places, wiring} = this, half = places.boxWidth(wiring.outputs.length - 1) / 2;
        return wiring.ends.map((_, wire) => {
            const away = wire < wiring.entries ? places.away : half + 0.2 * places.font;
            return text(places.wireBegin(wire) + away, places.wireY(wire) + places.countAway, "", 'class="count"');
        });
    }

    balancers() {
        const {places, wiring} = this;
        return wiring.outputs.flatMap((pair, balancer) => {
            const x = places.bars[balancer], [top, bottom] = places.bar(balancer), y = places.boxY(balancer);
            const dots = [top, bottom].map(at => `<circle class="dot" cx="${x}" cy="${at}" r="${places.dot}"/>`);
            return [
                `<path class="bar" d="M${x} ${top}V${bottom}"/>`, ...dots,
                `<g transform="translate(${x} ${y})"><title>balancer ${balancer}</title>`
                    + `<rect class="box" ${box(places.boxWidth(balancer), places.box, 0.2)}/>`
                    + `${text(0, 0, balancer, 'class="inbox"')}</g>`,
            ];
        });
    }

    // Entries or exits, on a ground that hides what is scrolled below them.
    ends(id, x, width, drawn) {
        const {line, bottom} = this.places;
        return `<g id="${id}"><rect class="ground" x="${x}" y="${line}" width="${width}" height="${bottom - line}"/>`
            + `${drawn.join("")}</g>`;
    }

    entries() {
        const {places, wiring} = this, {font, left, row} = places;
        const width = left - 1.2 * font, height = places.finger ? row - 0.7 * font : Math.min(2.2 * font, row - 4);
        return Array.from({length: wiring.entries}, (_, entry) =>
            `<g class="entry" data-entry="${entry}" tabindex="0" role="button" `
            + `aria-label="let a client in by entry ${entry}" `
            + `transform="translate(${left / 2} ${places.wireY(entry)})">`
            + `<rect class="finger" ${box(left, row, 0)}/><rect class="body" ${box(width, height, 0.2)}/>`
            + `${text(0, 0, places.entryWords(entry))}</g>`);
    }

    exits() {
        const {places} = this, {font, right} = places;
        return this.wiring.exitWires.map((wire, exit) => {
            const words = places.exitWords(exit), width = places.room(words) + 0.6 * font, y = places.wireY(wire);
            return `<rect class="exit-box" x="${right + 0.3 * font}" y="${y - 0.8 * font}" width="${width}" `
                + `height="${1.6 * font}" rx="3"/>${text(right + 0.6 * font, y, words, 'class="exit"')}`;
        });
    }

    // Where the bar of a wire begins, behind its count, and how long it is at most.
    stair(wire) {
        const [begin, end] = this.places.gap(wire), x = begin + 0.9 * this.places.font;
        return [x, end - x];
    }

    // A box about each part, and behind it a bar for each of its wires, as long as its count.
    boxes() {
        const {places, wiring} = this, half = places.boxWidth(wiring.outputs.length - 1) / 2 + 0.4 * places.font;
        this.behind = this.parts.map(part => wiresBehind(part, wiring, places.rows));
        return this.parts.map(({words, levels: [first, last], rows: [top, bottom]}, at) => {
            const x = places.gaps[first][1] - 0.2 * places.font, end = places.gaps[last + 1][0] - half;
            const y = places.y(top) - 0.5 * places.row + 2, height = places.y(bottom) + 0.5 * places.row - 2 - y;
            const stairs = this.behind[at].map(wire =>
                `<rect class="stair" x="${this.stair(wire)[0]}" y="${places.wireY(wire) - 0.42 * places.row}" `
                + `height="${0.84 * places.row}" width="0"/>`);
            const labelX = x + half + 2.2 * places.font, labelY = places.y(top) - 1.4 * places.font;
            return `<rect class="part" x="${x}" y="${y}" width="${end - x}" height="${height}" rx="6"/>`
                + `${text(labelX, labelY, words, 'class="number"')}${stairs.join("")}`;
        });
    }

    // Draws what is so now.
    show(floor) {
        this.showDots(floor.next);
        this.showCounts(floor.came);
        this.showStairs(floor.came);
        this.tokens.show(floor);
    }

    showDots(next) {
        next.forEach((output, balancer) => {
            if (this.shownNext?.[balancer] === output) return;
            [0, 1].forEach(at => this.dots[2 * balancer + at].classList.toggle("next", output === at));
        });
        this.shownNext = [...next];
    }

    // A wire to which nobody came has a 0 if somebody went by its balancer.
    showCounts(came) {
        this.shownCounts = this.counts.map((count, wire) => {
            const pair = this.wiring.outputs[this.wiring.sources[wire]] ?? [wire];
            const words = pair.some(it => came[it]) ? String(came[wire]) : "";
            if (words !== (this.shownCounts?.[wire] ?? "")) count.textContent = words;
            return words;
        });
    }

    showStairs(came) {
        const wires = this.behind.flat(), most = Math.max(4, ...wires.map(wire => came[wire]));
        wires.forEach((wire, at) => {
            this.stairs[at].setAttribute("width", this.stair(wire)[1] * came[wire] / most);
        });
    }

    // The greater the share of clients is that added to a word, the deeper is its colour.
    showLoads(shares) { shares.forEach((share, at) => this.words[at].style.setProperty("--share", share)); }

    // Marks the wire to which a client would go next, if it is inside and goes by a balancer.
    mark(it, floor) {
        const end = it && it.wire !== null ? this.wiring.ends[it.wire] : null;
        const wire = end && !end.isExit ? this.wiring.outputs[end.number][floor.next[end.number]] : -1;
        this.lines[this.marked]?.classList.remove("marked");
        this.lines[wire]?.classList.add("marked");
        this.marked = wire;
    }

    // Keeps entries and exits in sight, where the network is wider than its frame.
    stick(frame) {
        const scale = this.svg.clientWidth / this.places.width || 1;
        const back = Math.min(0, (frame.scrollLeft + frame.clientWidth) / scale - this.places.afterExits);
        this.svg.querySelector("#entries").setAttribute("transform", `translate(${frame.scrollLeft / scale} 0)`);
        this.svg.querySelector("#exits").setAttribute("transform", `translate(${back} 0)`);
    }
}

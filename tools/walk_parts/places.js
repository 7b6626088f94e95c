"use strict";
// What stands at which place, in pixels: the networks of this page as tools/picture_parts/layout.py lays them out, with
// what lies from left to right counted from where entries begin.
const PLACES = @PLACES@;
// How wide the words below a token behind an exit are, in letters; how many such tokens are seen, for fingers fewer.
const NAME_LETTERS = 7, NAMES_SEEN = 3, NAMES_FOR_FINGERS = 2;
// For fingers the words at entries and exits are so many times as large as others.
const END_LETTER = 1.4;

class Places {
    // For fingers entries have only their numbers, and are so high and wide at least.
    constructor(wiring, finger = 0) {
        const {row, top, left, levels, gaps, columns, behind, below, ...sizes} = laidOut(wiring, finger), {font} = sizes;
        Object.assign(this, sizes, {wiring, finger, isTree: wiring.entries === 1});
        this.row = Math.max(row, finger);
        this.top = Math.max(top, this.line + finger / 2);
        // How far above its wire a number stands, and below it a count; in high rows tokens do not touch them.
        [this.numberAway, this.countAway] = finger ? [1.25 * font, 1.25 * font] : [0.72 * font, 0.98 * font];
        this.left = finger ? Math.max(this.room(wiring.entries) + 2 * font, finger + 1.2 * font) : left;
        this.bars = columns.map((away, balancer) => this.left + levels[wiring.levels[balancer]] + away);
        this.gaps = gaps.map(gap => gap.map(at => this.left + at));
        this.right = this.gaps.at(-1)[1];
        this.afterExits = this.right + (finger ? this.room(wiring.width) + font : behind);
        this.nameWidth = NAME_LETTERS * this.letter;
        this.namesSeen = finger ? NAMES_FOR_FINGERS : NAMES_SEEN;
        this.width = this.afterExits + this.namesSeen * this.nameWidth + font;
        this.bottom = this.y(Math.max(...this.rows)) + Math.max(below, finger / 2);
    }

    entryWords(entry) { return this.finger ? `${entry}` : `entry ${entry}`; }
    exitWords(exit) { return this.finger ? `${exit}` : `exit ${exit}`; }
    room(words) { return (this.finger ? END_LETTER : 1) * this.letter * String(words).length; }
    boxWidth(words) { return this.boxEnds + this.boxLetter * String(words).length; }
    y(row) { return this.top + this.row * row; }
    wireY(wire) { return this.y(this.rows[wire]); }
    wireBegin(wire) { return wire < this.wiring.entries ? this.left : this.bars[this.wiring.sources[wire]]; }

    wireEnd(wire) {
        const {isExit, number} = this.wiring.ends[wire];
        return isExit ? this.right : this.bars[number];
    }

    gap(wire) {
        const {isExit, number} = this.wiring.ends[wire];
        return this.gaps[isExit ? this.wiring.depth : this.wiring.levels[number]];
    }

    bar(balancer) { return this.wiring.outputs[balancer].map(wire => this.wireY(wire)); }

    boxY(balancer) {
        const [top, bottom] = this.bar(balancer);
        return this.isTree ? (top + bottom) / 2 : top + 0.42 * this.row;
    }
}

// With room for tokens that a mouse goes to, or a finger.
function laidOut({kind, width}, finger) {
    const {forMouse, forFingers, ...both} = PLACES[kind][width];
    return {...both, ...(finger ? forFingers : forMouse)};
}

"use strict";
// The lesson: six stops, each with its network, its clients, what is to be done, when that is done and what was seen.
const isQuiet = floor => floor.left.length > 0 && !floor.inside;
const hasLeft = it => it?.wire === null;
// Who is to be overtaken in the third stop, and by whom.
const FIRST = "101", SECOND = "102";
const times = count => ["", "once", "twice"][count] ?? `${count} times`;

const LESSON = [
    {
        title: "one balancer", network: "bitonic-2", schedule: "e101.0,e102.0,e103.0,e104.1",
        task: "A balancer sends clients by turns up and down, and its full dot shows which is next. Click clients, in"
            + " any order, until all have left.",
        isDone: isQuiet,
        done: "By turns: as many left by exit 0 as by exit 1, or one more. A name is the number of the exit, and 2 more"
            + " for each who left there before.",
    },
    {
        title: "a tree", network: "tree-4", schedule: "e101.0,e102.0,e103.0,e104.0,e105.0",
        task: "In a tree all come in by one entry. Each balancer sends half of them up and half down. Let all leave, in"
            + " any order.",
        isDone: isQuiet,
        done: "Exits 0, 1, 2 and 3 are taken by turns, whoever comes first: so the names have no gap. But all pass"
            + " balancer 0, so threads that walk at once meet there.",
    },
    {
        title: "overtaking", network: "bitonic-4", schedule: "e101.0,e102.1",
        task: "101 came in first. Let 102 overtake it: 102 has to leave while 101 is inside.",
        isDone: hasOvertaken, done: overtakenWords, missed: missedWords,
    },
    {
        title: "a gap?", network: "bitonic-4", schedule: "e101.0,e102.0,e103.3",
        task: "Try to leave a gap: let all leave so that their names are not 0, 1 and 2. Any order will do, and more"
            + " clients may come in.",
        isDone: isQuiet, isGapTried: true,
        done: "No gap, and none can be left: that is proved for each number of clients and each order. Press back, and"
            + " try another order.",
    },
    {
        title: "parts", network: "bitonic-8",
        schedule: [...enters(10, 101, at => [0, 0, 5][at % 3]), ...rounds(10, 101, 1)].join(),
        task: "A bitonic network of width 8 is made of two of width 4 and a merger. To the right of each box bars"
            + " show how many clients came by each wire. Press walk all.",
        isDone: isQuiet, shows: "parts-seen",
        done: "To the right of each box the bars are a staircase: by an upper wire came as many clients as by a"
            + " lower one, or one more. The merger makes one staircase of two.",
    },
    {
        title: "why", network: "bitonic-8", schedule: enters(8, 101, at => at).join(),
        task: "One counter is one word of memory: all clients add to it, one after another. Here each entry, balancer"
            + " and exit has a word of its own. Press walk all: how many add to the busiest?",
        isDone: isQuiet, shows: "loads-seen",
        done: loadWords,
    },
];
const WELCOME = "Three clients wait. Click 101, or press step: balancers send clients by turns up and down. Whenever"
    + " nobody is inside, the k clients that came in have the names 0 to k-1.";
const GOING = "Click a client to take it past its next balancer, or an entry to let one in. Whenever nobody is inside,"
    + " the k clients that came in have the names 0 to k-1.";

const isDone = ({lesson, floor}) => lesson !== null && LESSON[lesson].isDone(floor);

// Whether the second has left, and the first, if it has left too, later.
function hasOvertaken({clients}) {
    const first = clients.get(FIRST), second = clients.get(SECOND);
    return hasLeft(second) && !(hasLeft(first) && first.left < second.left);
}

function overtakenWords({floor: {clients}}) {
    const first = clients.get(FIRST), second = clients.get(SECOND);
    if (hasLeft(first)) {
        return `${SECOND} left before ${FIRST}, with the name ${second.name}, and ${FIRST} with the name ${first.name}:`
            + " no client waits for another.";
    }
    return `${SECOND} has left, and ${FIRST} has not: no client waits for another. Let ${FIRST} leave too, and look at`
        + " the names.";
}

// How far back the first is inside, if it has left without being overtaken.
function missedWords({floor: {clients}, done}) {
    const first = clients.get(FIRST);
    if (!hasLeft(first)) return "";
    return `${FIRST} has left, and ${SECOND} did not overtake it. Press back ${times(done - first.leftAfter)}: then`
        + ` ${FIRST} is inside again, and ${SECOND} can leave before it.`;
}

// What stands above the picture.
function taskWords(page) {
    const {lesson, isWelcome, tries} = page;
    if (lesson === null) return isWelcome ? WELCOME : GOING;
    const {task, done, missed} = LESSON[lesson], begin = `Stop ${lesson + 1} of ${LESSON.length}.`;
    if (!isDone(page)) return `${begin} ${missed?.(page) || task}`;
    return `${begin} ${done.call ? done(page) : done}${tries > 1 ? ` (${tries} tries.)` : ""}`;
}

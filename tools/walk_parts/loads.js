"use strict";
// How many clients add to each word of a network, in which each entry, balancer and exit has one, and to the only word
// of one counter.

// Of each word its name and how many clients of this epoch added to it: of entries first, then of balancers.
function loadsOf({wiring: {entries, outputs}, came, gone}) {
    const passed = outputs.map(([up, down]) => came[up] + came[down]);
    return Object.entries({entry: came.slice(0, entries), balancer: passed, exit: gone})
        .flatMap(([name, counts]) => counts.map((count, at) => ({name: `${name} ${at}`, count})));
}

// The first of those words to which most clients added.
const busiestOf = loads => loads.reduce((a, b) => b.count > a.count ? b : a);

// The last stop's numbers, when all have left.
function loadWords({floor}) {
    const loads = loadsOf(floor), all = floor.clients.size, added = loads.reduce((sum, {count}) => sum + count, 0);
    return `To one counter's word ${all} of ${all} clients added, to the busiest word here ${busiestOf(loads).count}`
        + ` of ${all}. The price: each client added to ${added / all} words. In a tree all add to one, the word of its`
        + " only entry, as to one counter.";
}

// One counter and the network, one below the other, each with a bar as long as the share of clients that add to its
// busiest word.
function showLoads({floor, drawing}) {
    const isSeen = $("loads-seen").checked, all = floor.clients.size;
    $("loads").hidden = !isSeen;
    $("network").classList.toggle("with-loads", isSeen);
    if (!isSeen) return;
    const loads = loadsOf(floor), {name, count} = busiestOf(loads), share = it => `${100 * it / Math.max(1, all)}%`;
    const busiest = `the busiest of its ${loads.length} words, that of ${name}`;
    const [counter, network] = $("loads").children;
    drawing.showLoads(loads.map(it => share(it.count)));
    counter.textContent = `One counter: ${all} of ${all} clients add to its only word.`;
    network.textContent = `This network: ${count} of ${all} add to ${busiest}.`;
    counter.style.setProperty("--share", share(all));
    network.style.setProperty("--share", share(count));
}

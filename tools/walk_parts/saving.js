"use strict";
// Hands on what the page shows: its address, and its picture as a file.

// Copies the address, and says whether it was.
async function copyLink(page) {
    const address = location.href.split("#")[0] + page.address();
    try {
        await navigator.clipboard.writeText(address);
        return "The link is copied: it has the whole walk.";
    } catch {
        return "This browser lets no page copy: the link is the address of this page.";
    }
}

// The picture, with the colours of the page in it, all its entries and exits in their places.
function pictureText() {
    const copy = $("network").cloneNode(true), {width, height} = $("network").viewBox.baseVal;
    const style = document.createElementNS(SVG, "style");
    style.textContent = document.querySelector("style").textContent;
    copy.prepend(style);
    copy.querySelectorAll("#entries, #exits").forEach(group => group.removeAttribute("transform"));
    copy.setAttribute("width", width);
    copy.setAttribute("height", height);
    return new XMLSerializer().serializeToString(copy);
}

function savePicture({wiring}) {
    const link = document.createElement("a"), file = new Blob([pictureText()], {type: "image/svg+xml"});
    link.href = URL.createObjectURL(file);
    link.download = `${wiring.kind}_${wiring.width}.svg`;
    link.click();
    // Some browsers read it a little later.
    setTimeout(() => URL.revokeObjectURL(link.href), 1000);
    return `The picture is saved as ${link.download}.`;
}

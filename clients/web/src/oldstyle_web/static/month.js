// The month by keyboard: arrows go from day to day, Home and End to the ends of a week.
const STEPS = {ArrowLeft: -1, ArrowRight: 1, ArrowUp: -7, ArrowDown: 7};

for (const grid of document.querySelectorAll("table[data-month]")) {
    const cells = [...grid.querySelectorAll("tbody td")];
    const links = cells.map((cell) => cell.querySelector("a"));
    grid.addEventListener("keydown", (event) => {
        const at = links.indexOf(event.target);
        const to = at < 0 ? null : target(event.key, at, links);
        if (!to) return;
        event.preventDefault();
        to.focus();
    });
}

// The day to which a key leads, or nothing.
function target(key, at, links) {
    if (key in STEPS) {
        let place = at + STEPS[key];
        while (links[place] === null) place += STEPS[key];
        return links[place];
    }
    const week = links.slice(at - at % 7, at - at % 7 + 7).filter((link) => link);
    if (key === "Home") return week[0];
    return key === "End" ? week[week.length - 1] : null;
}

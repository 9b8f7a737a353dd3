// The citation of a page: buttons that copy it in several forms, and its address for the printer.
import {bibtex, csl, ris} from "./formats.js";
import {_} from "./messages.js";

// What a citation has, by its section of the page.
function itemOf(section, link) {
    const {name, what, version, sources} = section.dataset;
    return {name, what, version, sources, address: link.href, seen: new Date()};
}

// Puts buttons that copy beside the link, if the browser lets a page copy.
export function offerCopy() {
    const link = document.getElementById("link");
    if (!link) return;
    link.dataset.address = link.href;
    if (!navigator.clipboard) return;
    const item = () => itemOf(link.closest("section"), link);
    link.parentElement.append(
        copyButton(_("Copy the citation"), () => document.getElementById("citation").textContent),
        copyButton(_("Copy the link"), () => link.href),
        copyButton("BibTeX", () => bibtex(item())), copyButton("RIS", () => ris(item())),
        copyButton("CSL-JSON", () => csl(item())));
}

function copyButton(name, text) {
    const button = document.createElement("button");
    button.type = "button";
    button.className = "plain";
    button.textContent = name;
    button.addEventListener("click", async () => {
        try {
            await navigator.clipboard.writeText(text());
            button.textContent = _("Copied");
            status().textContent = _("Copied");
        } catch {
            button.textContent = _("Not allowed: mark it and copy");
        }
        setTimeout(() => { button.textContent = name; }, 2000);
    });
    return button;
}

// What is read aloud. A page without a line for that gets one.
function status() {
    let line = document.getElementById("announcement");
    if (line) return line;
    line = document.createElement("p");
    line.id = "announcement";
    line.className = "visually-hidden";
    line.setAttribute("role", "status");
    document.querySelector("main").append(line);
    return line;
}

offerCopy();
